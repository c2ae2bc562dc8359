//! All cells of a mesh by plain enumeration: every base, every order, every direction.

use std::collections::HashMap;

use crate::cell::{Cell, Triangulation};
use crate::corner::Corner;

/// The cells of a mesh, and their corners by numbers.
pub struct Listing {
    pub goods: usize,
    pub mesh: u32,
    pub corners: Vec<Corner>,
    pub cells: Vec<Cell>,
    /// The numbers of the corners of each cell.
    pub sets: Vec<Vec<usize>>,
}

/// No mesh has more cells than this.
pub fn bound(goods: usize, mesh: u32) -> u64 {
    let power = |n: u32| u64::from(n).pow(goods as u32);
    power(mesh + 1) - power(mesh)
}

impl Listing {
    pub fn new(triangulation: Triangulation, goods: usize, mesh: u32) -> Listing {
        let mut corners = Vec::new();
        for first in [mesh, mesh + 1] {
            list_corners(goods, &mut vec![first], &mut corners);
        }
        let mut cells = Vec::new();
        for base in &corners {
            let odd = base.levels.iter().all(|level| level % 2 == 1);
            if triangulation == Triangulation::K1 || odd {
                let (order, up) = (Vec::new(), vec![true; goods]);
                let base = base.levels.clone();
                let cell = Cell { base, order, up };
                list_cells(triangulation, mesh, cell, &mut cells);
            }
        }
        let sets = corner_numbers(&corners, &cells);
        Listing {
            goods,
            mesh,
            corners,
            cells,
            sets,
        }
    }

    /// The number of a corner.
    pub fn corner_number(&self, corner: &Corner) -> Option<usize> {
        self.corners.iter().position(|other| other == corner)
    }
}

/// All corners whose first levels are given.
fn list_corners(goods: usize, levels: &mut Vec<u32>, corners: &mut Vec<Corner>) {
    if levels.len() == goods {
        let levels = levels.clone();
        corners.push(Corner { levels });
        return;
    }
    for next in 0..=levels[levels.len() - 1] {
        levels.push(next);
        list_corners(goods, levels, corners);
        levels.pop();
    }
}

/// Whether levels are those of a corner.
fn is_corner(mesh: u32, corner: &Corner) -> bool {
    let levels = &corner.levels;
    (levels[0] == mesh || levels[0] == mesh + 1) && levels.windows(2).all(|w| w[0] >= w[1])
}

/// All cells with a base and with the first levels of the order given, each with its direction.
fn list_cells(triangulation: Triangulation, mesh: u32, cell: Cell, cells: &mut Vec<Cell>) {
    if cell.order.len() == cell.base.len() {
        cells.push(cell);
        return;
    }
    let directions: &[bool] = match triangulation {
        Triangulation::K1 => &[true],
        Triangulation::J1 => &[true, false],
    };
    let left = (1..=cell.base.len()).filter(|level| !cell.order.contains(level));
    for level in left {
        for &up in directions {
            let mut longer = cell.clone();
            longer.order.push(level);
            longer.up[level - 1] = up;
            let last = longer.corner(longer.order.len());
            if last.is_ok_and(|corner| is_corner(mesh, &corner)) {
                list_cells(triangulation, mesh, longer, cells);
            }
        }
    }
}

fn corner_numbers(corners: &[Corner], cells: &[Cell]) -> Vec<Vec<usize>> {
    let pairs = corners.iter().enumerate();
    let numbers: HashMap<&Corner, usize> = pairs.map(|(number, corner)| (corner, number)).collect();
    let set = |cell: &Cell| {
        let corners = (0..=cell.goods()).filter_map(|place| cell.corner(place).ok());
        let mut set: Vec<usize> = corners.map(|corner| numbers[&corner]).collect();
        set.sort();
        set
    };
    cells.iter().map(set).collect()
}
