//! Cells of the triangulations K1 and J1: corners, what lies across, start cells, addresses.

use crate::corner::{Corner, Wall};
use crate::point::PricePoint;
use crate::refusal::Refusal;

#[derive(Clone, Copy, Debug, PartialEq, Eq, Hash)]
pub enum Triangulation {
    K1,
    J1,
}

/// A base, an order of the levels (counted from 1), and for each level whether it goes up.
#[derive(Clone, Debug, PartialEq, Eq, Hash)]
pub struct Cell {
    pub base: Vec<u32>,
    pub order: Vec<usize>,
    pub up: Vec<bool>,
}

#[derive(Clone, Debug, PartialEq, Eq)]
pub enum Across {
    Neighbour(Cell, usize),
    Wall(Wall),
}

impl Cell {
    pub fn goods(&self) -> usize {
        self.base.len()
    }

    fn goes_up(&self, level: usize) -> bool {
        self.up[level - 1]
    }

    /// The corner at a place: the base with the first levels of the order moved by one.
    pub fn corner(&self, place: usize) -> Result<Corner, Refusal> {
        if place > self.goods() {
            return Err(Refusal::NoSuchPlace);
        }
        let mut levels = self.base.clone();
        for &level in &self.order[..place] {
            if self.goes_up(level) {
                levels[level - 1] += 1;
            } else {
                levels[level - 1] -= 1;
            }
        }
        Ok(Corner { levels })
    }

    /// The smaller of the two values of each level, along the order.
    pub fn address(&self) -> Vec<u32> {
        let smaller = |&level: &usize| {
            let value = self.base[level - 1];
            if self.goes_up(level) {
                value
            } else {
                value - 1
            }
        };
        self.order.iter().map(smaller).collect()
    }
}

impl Triangulation {
    /// The start cell of a point and the place of the point in it.
    pub fn start(self, point: &PricePoint) -> Result<(Cell, usize), Refusal> {
        let goods = point.goods();
        let but_last = &point.prices()[..goods - 1];
        if self == Triangulation::J1 && but_last.iter().any(|price| price % 2 == 1) {
            return Err(Refusal::NotAdmitted);
        }
        let levels = point.levels();
        if self == Triangulation::K1 || point.mesh() % 2 == 1 {
            let order = (1..=goods).collect();
            let up = vec![true; goods];
            let base = levels;
            return Ok((Cell { base, order, up }, 0));
        }
        let base = levels.iter().map(|level| level + 1).collect();
        let order = (1..=goods).rev().collect();
        let up = vec![false; goods];
        Ok((Cell { base, order, up }, goods))
    }

    /// What lies across a place of a cell.
    pub fn across(self, mesh: u32, cell: &Cell, place: usize) -> Result<Across, Refusal> {
        if place > cell.goods() {
            return Err(Refusal::NoSuchPlace);
        }
        let (from, level, up) = self.turn(cell, place);
        Ok(match cell.corner(from)?.moved(mesh, level, up) {
            Err(wall) => Across::Wall(wall),
            Ok(_) => {
                let (neighbour, new_place) = self.neighbour(cell, place);
                Across::Neighbour(neighbour, new_place)
            }
        })
    }

    /// How the new corner comes from one that stays: the place of that one, the level that moves,
    /// and whether it moves up.
    fn turn(self, cell: &Cell, place: usize) -> (usize, usize, bool) {
        let goods = cell.goods();
        let (first, last) = (cell.order[0], cell.order[goods - 1]);
        match self {
            _ if 0 < place && place < goods => {
                let next = cell.order[place];
                (place - 1, next, cell.goes_up(next))
            }
            Triangulation::K1 if place == 0 => (goods, first, true),
            Triangulation::K1 => (0, last, false),
            Triangulation::J1 if place == 0 => (1, first, cell.goes_up(first)),
            Triangulation::J1 => (goods - 1, last, !cell.goes_up(last)),
        }
    }

    /// The neighbour across a place that is not at a wall, and the place of its new corner.
    fn neighbour(self, cell: &Cell, place: usize) -> (Cell, usize) {
        let goods = cell.goods();
        let (first, last) = (cell.order[0], cell.order[goods - 1]);
        let mut new = cell.clone();
        match self {
            _ if 0 < place && place < goods => {
                new.order.swap(place - 1, place);
                (new, place)
            }
            Triangulation::K1 if place == 0 => {
                new.base[first - 1] += 1;
                new.order.rotate_left(1);
                (new, goods)
            }
            Triangulation::K1 => {
                new.base[last - 1] -= 1;
                new.order.rotate_right(1);
                (new, 0)
            }
            Triangulation::J1 if place == 0 => {
                let value = cell.base[first - 1];
                let up = cell.goes_up(first);
                new.base[first - 1] = if up { value + 2 } else { value - 2 };
                new.up[first - 1] = !up;
                (new, place)
            }
            Triangulation::J1 => {
                new.up[last - 1] = !cell.goes_up(last);
                (new, place)
            }
        }
    }
}
