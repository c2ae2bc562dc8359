//! Price points: prices that add up to the mesh.

use crate::refusal::Refusal;

/// The finest mesh for a number of goods.
pub fn finest(goods: usize) -> u32 {
    if goods <= 4 {
        16_384
    } else {
        128
    }
}

#[derive(Clone, Debug, PartialEq, Eq)]
pub struct PricePoint {
    mesh: u32,
    prices: Vec<u32>,
}

impl PricePoint {
    pub fn new(goods: usize, mesh: u32, prices: &[u32]) -> Result<PricePoint, Refusal> {
        if !(2..=8).contains(&goods) {
            return Err(Refusal::GoodsOutOfRange);
        }
        if mesh < 1 || mesh > finest(goods) {
            return Err(Refusal::MeshOutOfRange);
        }
        let sum: u64 = prices.iter().map(|&price| u64::from(price)).sum();
        if prices.len() != goods || sum != u64::from(mesh) {
            return Err(Refusal::NotAPricePoint);
        }
        let prices = prices.to_vec();
        Ok(PricePoint { mesh, prices })
    }

    pub fn goods(&self) -> usize {
        self.prices.len()
    }

    pub fn mesh(&self) -> u32 {
        self.mesh
    }

    pub fn prices(&self) -> &[u32] {
        &self.prices
    }

    /// The sums of the prices from each good on.
    pub fn levels(&self) -> Vec<u32> {
        (0..self.goods())
            .map(|j| self.prices[j..].iter().sum())
            .collect()
    }
}

/// The prices that belong to falling levels.
pub fn prices_of(levels: &[u32]) -> Vec<u32> {
    let below = levels.iter().skip(1).chain(&[0]);
    levels.iter().zip(below).map(|(u, next)| u - next).collect()
}
