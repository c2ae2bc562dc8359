//! Corners by their levels, outer labels, and the walls.

use crate::point::{prices_of, PricePoint};

#[derive(Clone, Copy, Debug, PartialEq, Eq)]
pub enum Wall {
    Good(usize),
    Outer,
    Real,
}

/// Levels that fall from the mesh (a real corner) or from one more (an outer corner).
#[derive(Clone, Debug, PartialEq, Eq, Hash, PartialOrd, Ord)]
pub struct Corner {
    pub levels: Vec<u32>,
}

impl Corner {
    pub fn is_real(&self, mesh: u32) -> bool {
        self.levels[0] == mesh
    }

    pub fn prices(&self) -> Vec<u32> {
        prices_of(&self.levels)
    }

    /// The corner with one level (counted from 1) moved by one, or the wall that is in the way.
    pub fn moved(&self, mesh: u32, level: usize, up: bool) -> Result<Corner, Wall> {
        let here = self.levels[level - 1];
        if up && level == 1 && here == mesh + 1 {
            return Err(Wall::Outer);
        }
        if up && level > 1 && here == self.levels[level - 2] {
            return Err(Wall::Good(level - 1));
        }
        if !up && level == 1 && here == mesh {
            return Err(Wall::Real);
        }
        if !up && here == self.levels.get(level).copied().unwrap_or(0) {
            return Err(Wall::Good(level));
        }
        let mut levels = self.levels.clone();
        levels[level - 1] = if up { here + 1 } else { here - 1 };
        Ok(Corner { levels })
    }

    pub fn lies_on(&self, mesh: u32, wall: Wall) -> bool {
        match wall {
            Wall::Good(good) => self.prices()[good - 1] == 0,
            Wall::Outer => self.levels[0] == mesh + 1,
            Wall::Real => self.levels[0] == mesh,
        }
    }
}

/// The smallest good whose price is strictly above that of the start, 0 if there is none.
pub fn outer_label(corner: &Corner, start: &PricePoint) -> u8 {
    let prices = corner.prices();
    let above = |j: &usize| prices[*j] > start.prices()[*j];
    let good = (0..prices.len()).find(above);
    good.map_or(0, |j| j as u8 + 1)
}
