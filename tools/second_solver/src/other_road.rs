//! A check of walks by another road. All cells of a small mesh are listed and labelled; where a walk
//! may end, and how many cells it should enter, is read off the list.

use std::collections::HashMap;

use crate::cell::Triangulation;
use crate::corner::{outer_label, Corner};
use crate::labelling::{is_proper, Labelling};
use crate::listing::{bound, Listing};
use crate::point::PricePoint;
use crate::refusal::Refusal;
use crate::solve::reach;
use crate::walk::{Run, Stage};

/// The numbers of the corners of a facet, in order.
type Facet = Vec<usize>;

/// A walk to be checked.
pub struct Task<'a> {
    pub triangulation: Triangulation,
    pub start: PricePoint,
    pub labelling: &'a dyn Labelling,
}

/// What a walk and the list agreed on.
pub struct Agreed {
    pub arrived: bool,
    pub cells_entered: u64,
    pub clearing_facets: usize,
}

/// A listing with a label for each corner, 0 for an improper one.
struct Labelled<'a> {
    listing: &'a Listing,
    labels: Vec<u8>,
}

impl Labelled<'_> {
    fn new<'a>(listing: &'a Listing, task: &Task) -> Result<Labelled<'a>, Refusal> {
        let label = |corner: &Corner| {
            let prices = corner.prices();
            let label = if corner.is_real(listing.mesh) {
                let point = PricePoint::new(listing.goods, listing.mesh, &prices)?;
                task.labelling.label(&point)
            } else {
                outer_label(corner, &task.start)
            };
            Ok(if is_proper(label, &prices) { label } else { 0 })
        };
        let labels: Result<Vec<u8>, Refusal> = listing.corners.iter().map(label).collect();
        let labels = labels?;
        Ok(Labelled { listing, labels })
    }

    /// Whether corners carry all labels from 1 to the number of goods.
    fn has_all(&self, corners: &[usize]) -> bool {
        let all = (1u32 << (self.listing.goods + 1)) - 2;
        let seen = corners
            .iter()
            .fold(0, |seen, &c| seen | 1 << self.labels[c]);
        seen & all == all
    }

    /// The facets of a cell that carry all labels.
    fn full_facets(&self, cell: usize) -> Vec<Facet> {
        let set = &self.listing.sets[cell];
        if !self.has_all(set) {
            return Vec::new();
        }
        let without = |place: usize| [&set[..place], &set[place + 1..]].concat();
        let facets = (0..set.len()).map(without);
        facets.filter(|facet| self.has_all(facet)).collect()
    }

    fn on_real_wall(&self, facet: &Facet) -> bool {
        let corner = |&c: &usize| self.listing.corners[c].is_real(self.listing.mesh);
        facet.iter().all(corner)
    }

    fn on_outer_wall(&self, facet: &Facet) -> bool {
        let corner = |&c: &usize| !self.listing.corners[c].is_real(self.listing.mesh);
        facet.iter().all(corner)
    }

    fn all_proper(&self) -> bool {
        self.labels.iter().all(|&label| label > 0)
    }
}

/// The full facets of a listing, each with the cells to which it belongs.
struct Facets {
    of_cell: Vec<Vec<Facet>>,
    cells: HashMap<Facet, Vec<usize>>,
}

impl Facets {
    fn new(labelled: &Labelled) -> Facets {
        let numbers = 0..labelled.listing.cells.len();
        let of_cell: Vec<Vec<Facet>> = numbers.map(|cell| labelled.full_facets(cell)).collect();
        let mut cells: HashMap<Facet, Vec<usize>> = HashMap::new();
        for (cell, facets) in of_cell.iter().enumerate() {
            for facet in facets {
                cells.entry(facet.clone()).or_default().push(cell);
            }
        }
        Facets { of_cell, cells }
    }

    /// The cells that hang together from a facet on a wall, by shared full facets: how many they
    /// are, the last one, and the facet by which the row of them ends, if any.
    fn row(&self, from: &Facet) -> Result<(u64, usize, Option<Facet>), String> {
        let mut cell = self.cells[from][0];
        let mut entered = from.clone();
        let mut count = 1;
        loop {
            let left: Vec<&Facet> = self.of_cell[cell]
                .iter()
                .filter(|f| **f != entered)
                .collect();
            if left.len() > 1 {
                return Err("a cell with three full facets".to_string());
            }
            let Some(&exit) = left.first() else {
                return Ok((count, cell, None));
            };
            let Some(&next) = self.cells[exit].iter().find(|other| **other != cell) else {
                return Ok((count, cell, Some(exit.clone())));
            };
            cell = next;
            entered = exit.clone();
            count += 1;
        }
    }
}

/// The number of the cell that a run stands in, and of its kept corners after an arrival.
fn stands(listing: &Listing, run: &Run) -> Option<(usize, Option<Facet>)> {
    let cell = listing.cells.iter().position(|cell| cell == run.cell())?;
    let Stage::Arrived { dropped } = run.stage() else {
        return Some((cell, None));
    };
    let mut facet = Facet::new();
    for (place, labelled) in run.corners().iter().enumerate() {
        if place != *dropped {
            facet.push(listing.corner_number(&labelled.corner)?);
        }
    }
    facet.sort();
    Some((cell, Some(facet)))
}

fn see(right: bool, what: &str) -> Result<(), String> {
    if right {
        Ok(())
    } else {
        Err(what.to_string())
    }
}

/// Where a walk ended: the cell, the kept corners after an arrival, the count.
struct End {
    cell: usize,
    arrival: Option<Facet>,
    count: u64,
}

fn told(refusal: Refusal) -> String {
    format!("refusal {}", refusal.number())
}

/// Walks until the run arrives or halts.
fn walk(listing: &Listing, task: &Task) -> Result<End, String> {
    let (goods, mesh) = (listing.goods, listing.mesh);
    let (triangulation, labelling) = (task.triangulation, task.labelling);
    let prices = task.start.prices();
    let mut run = Run::open(7, goods, mesh, prices, triangulation, labelling).map_err(told)?;
    reach(&mut run, bound(goods, mesh)).map_err(told)?;
    let ended = *run.stage() != Stage::Walking;
    see(
        ended,
        "still walking after as many steps as there can be cells",
    )?;
    see(halt_is_right(&run, task), "a halt at a proper label")?;
    let (cell, arrival) = stands(listing, &run).ok_or("the cell or a corner is not listed")?;
    let count = run.count();
    Ok(End {
        cell,
        arrival,
        count,
    })
}

/// Walks, and sees that the listing says the same.
pub fn check(listing: &Listing, task: &Task) -> Result<Agreed, String> {
    let end = walk(listing, task)?;
    let labelled = Labelled::new(listing, task).map_err(told)?;
    let facets = Facets::new(&labelled);
    let all = facets.cells.keys();
    let clearing: Vec<&Facet> = all.filter(|f| labelled.on_real_wall(f)).collect();
    let among = |f: &Facet| clearing.contains(&f) && facets.cells[f] == [end.cell];
    let arrived = end.arrival.is_some();
    let right = end.arrival.as_ref().is_none_or(among);
    see(right, "the arrived facet is not among the full ones")?;
    if labelled.all_proper() {
        see(arrived, "a halt where all labels are proper")?;
        let odd = clearing.len() % 2 == 1;
        see(odd, "an even number of full facets on the real wall")?;
    }
    let all = facets.cells.keys();
    let outer: Vec<&Facet> = all.filter(|f| labelled.on_outer_wall(f)).collect();
    see(
        outer.len() == 1,
        "not just one full facet on the outer wall",
    )?;
    let row = facets.row(outer[0])?;
    let same = row == (end.count, end.cell, end.arrival);
    see(same, "the row of cells is another one")?;
    Ok(Agreed {
        arrived,
        cells_entered: end.count,
        clearing_facets: clearing.len(),
    })
}

/// After a halt: the named point has the named label, which is improper.
fn halt_is_right(run: &Run, task: &Task) -> bool {
    let Stage::Halted { prices, label } = run.stage() else {
        return true;
    };
    let point = PricePoint::new(run.goods(), run.mesh(), prices);
    let named = point.is_ok_and(|point| task.labelling.label(&point) == *label);
    named && !is_proper(*label, prices)
}
