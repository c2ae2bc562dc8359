//! Labellings, proper labels, and the sheet.

use crate::point::PricePoint;
use crate::refusal::Refusal;

pub trait Labelling {
    /// The label of a point, 0 where the labelling does not know it.
    fn label(&self, point: &PricePoint) -> u8;
}

/// Whether a label is a good with a price.
pub fn is_proper(label: u8, prices: &[u32]) -> bool {
    let label = usize::from(label);
    1 <= label && label <= prices.len() && prices[label - 1] > 0
}

/// Labels for two goods on one mesh, one byte for each value of the second level.
pub struct Sheet {
    mesh: u32,
    bytes: Vec<u8>,
}

impl Sheet {
    pub fn new(mesh: u32, bytes: &[u8]) -> Result<Sheet, Refusal> {
        if !(1..=64).contains(&mesh) {
            return Err(Refusal::SheetMeshOutOfRange);
        }
        if bytes.len() != mesh as usize + 1 {
            return Err(Refusal::SheetLength);
        }
        let bytes = bytes.to_vec();
        Ok(Sheet { mesh, bytes })
    }
}

impl Labelling for Sheet {
    fn label(&self, point: &PricePoint) -> u8 {
        if point.goods() != 2 || point.mesh() != self.mesh {
            return 0;
        }
        self.bytes[point.levels()[1] as usize]
    }
}
