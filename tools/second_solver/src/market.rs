//! Markets: traders with endowments and weights, excesses and labels.

use crate::labelling::Labelling;
use crate::point::PricePoint;
use crate::refusal::Refusal;

#[derive(Clone, Debug, PartialEq, Eq)]
pub struct Trader {
    pub owns: Vec<u16>,
    pub weighs: Vec<u16>,
}

impl Trader {
    /// What the endowment is worth.
    fn worth(&self, prices: &[u32]) -> i128 {
        let pairs = prices.iter().zip(&self.owns);
        pairs.map(|(&x, &w)| i128::from(x) * i128::from(w)).sum()
    }
}

#[derive(Clone, Debug, PartialEq, Eq)]
pub struct Market {
    pub goods: usize,
    pub sum: u16,
    pub traders: Vec<Trader>,
}

impl Market {
    /// What all traders own of a good, which is counted from 0 here.
    pub fn owned(&self, good: usize) -> i128 {
        self.traders
            .iter()
            .map(|trader| i128::from(trader.owns[good]))
            .sum()
    }

    /// The excess of a good, times the weight sum and its price.
    pub fn excess(&self, good: usize, point: &PricePoint) -> Result<i128, Refusal> {
        if !(1..=self.goods).contains(&good) {
            return Err(Refusal::NoSuchGood);
        }
        if point.goods() != self.goods {
            return Err(Refusal::NotAPricePoint);
        }
        Ok(self.excess_at(good - 1, point.prices(), &self.worths(point.prices())))
    }

    fn worths(&self, prices: &[u32]) -> Vec<i128> {
        self.traders.iter().map(|a| a.worth(prices)).collect()
    }

    fn excess_at(&self, good: usize, prices: &[u32], worths: &[i128]) -> i128 {
        let traders = self.traders.iter().zip(worths);
        let demanded: i128 = traders.map(|(a, m)| i128::from(a.weighs[good]) * m).sum();
        demanded - i128::from(self.sum) * i128::from(prices[good]) * self.owned(good)
    }
}

impl Labelling for Market {
    fn label(&self, point: &PricePoint) -> u8 {
        if point.goods() != self.goods {
            return 0;
        }
        let prices = point.prices();
        let worths = self.worths(prices);
        let labels = |j: &usize| prices[*j] > 0 && self.excess_at(*j, prices, &worths) <= 0;
        let good = (0..self.goods).find(labels);
        good.map_or(0, |j| j as u8 + 1)
    }
}
