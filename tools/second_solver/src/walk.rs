//! The walk from cell to cell: opening, stepping, refining, looking.

use crate::cell::{Across, Cell, Triangulation};
use crate::corner::{outer_label, Corner, Wall};
use crate::labelling::{is_proper, Labelling};
use crate::point::{finest, PricePoint};
use crate::refusal::Refusal;

const MOST_TOTAL: u64 = 1 << 62;

#[derive(Clone, Debug, PartialEq, Eq)]
pub enum Stage {
    Walking,
    Arrived { dropped: usize },
    Halted { prices: Vec<u32>, label: u8 },
}

#[derive(Debug, PartialEq, Eq)]
pub struct Ticket {
    pub number: u16,
    pub mesh: u32,
}

#[derive(Debug, PartialEq, Eq)]
pub enum Stepped {
    Moved,
    Arrived(Ticket),
    Halted,
}

/// A corner of the cell with its label, 0 while it has none.
#[derive(Clone, Debug, PartialEq, Eq)]
pub struct Labelled {
    pub corner: Corner,
    pub label: u8,
}

pub struct Run<'a> {
    number: u16,
    triangulation: Triangulation,
    labelling: &'a dyn Labelling,
    start: PricePoint,
    cell: Cell,
    corners: Vec<Labelled>,
    newest: usize,
    count: u64,
    total: u64,
    stage: Stage,
}

/// The corners of the start cell with their outer labels; the start itself has no label yet.
fn start_corners(cell: &Cell, start: &PricePoint) -> Result<Vec<Labelled>, Refusal> {
    let labelled = |place| {
        let corner = cell.corner(place)?;
        let label = if corner.is_real(start.mesh()) {
            0
        } else {
            outer_label(&corner, start)
        };
        Ok(Labelled { corner, label })
    };
    (0..=cell.goods()).map(labelled).collect()
}

impl<'a> Run<'a> {
    pub fn open(
        number: u16,
        goods: usize,
        mesh: u32,
        prices: &[u32],
        triangulation: Triangulation,
        labelling: &'a dyn Labelling,
    ) -> Result<Run<'a>, Refusal> {
        let start = PricePoint::new(goods, mesh, prices)?;
        let (cell, newest) = triangulation.start(&start)?;
        Ok(Run {
            number,
            triangulation,
            labelling,
            corners: start_corners(&cell, &start)?,
            start,
            cell,
            newest,
            count: 1,
            total: 1,
            stage: Stage::Walking,
        })
    }

    pub fn goods(&self) -> usize {
        self.start.goods()
    }

    pub fn mesh(&self) -> u32 {
        self.start.mesh()
    }

    pub fn count(&self) -> u64 {
        self.count
    }

    pub fn total(&self) -> u64 {
        self.total
    }

    pub fn stage(&self) -> &Stage {
        &self.stage
    }

    pub fn cell(&self) -> &Cell {
        &self.cell
    }

    pub fn corners(&self) -> &[Labelled] {
        &self.corners
    }

    /// The label of a corner for this start, by the outer rule or by the labelling.
    fn label_of(&self, corner: &Corner) -> Result<u8, Refusal> {
        if !corner.is_real(self.mesh()) {
            return Ok(outer_label(corner, &self.start));
        }
        let point = PricePoint::new(self.goods(), self.mesh(), &corner.prices())?;
        Ok(self.labelling.label(&point))
    }

    pub fn step(&mut self) -> Result<Stepped, Refusal> {
        if self.stage != Stage::Walking {
            return Err(Refusal::NotWalking);
        }
        let newest = self.corners[self.newest].corner.clone();
        let label = self.label_of(&newest)?;
        let prices = newest.prices();
        if !is_proper(label, &prices) {
            self.corners[self.newest].label = label;
            self.stage = Stage::Halted { prices, label };
            return Ok(Stepped::Halted);
        }
        let dropped = self.twin(label).ok_or(Refusal::WayBlocked)?;
        let across = self
            .triangulation
            .across(self.mesh(), &self.cell, dropped)?;
        match across {
            Across::Wall(Wall::Real) => {
                self.corners[self.newest].label = label;
                self.stage = Stage::Arrived { dropped };
                Ok(Stepped::Arrived(self.ticket()))
            }
            Across::Neighbour(cell, place) if self.total < MOST_TOTAL => {
                self.corners[self.newest].label = label;
                self.enter(cell, dropped, place)?;
                Ok(Stepped::Moved)
            }
            _ => Err(Refusal::WayBlocked),
        }
    }

    /// The place of the other corner with a label.
    fn twin(&self, label: u8) -> Option<usize> {
        let others = |&place: &usize| place != self.newest && self.corners[place].label == label;
        (0..self.corners.len()).find(others)
    }

    fn enter(&mut self, cell: Cell, dropped: usize, place: usize) -> Result<(), Refusal> {
        let corner = cell.corner(place)?;
        self.corners.remove(dropped);
        self.corners.insert(place, Labelled { corner, label: 0 });
        self.cell = cell;
        self.newest = place;
        self.count += 1;
        self.total += 1;
        Ok(())
    }

    fn ticket(&self) -> Ticket {
        Ticket {
            number: self.number,
            mesh: self.mesh(),
        }
    }

    /// Goes to a finer mesh; refused, nothing is altered and the ticket comes back.
    pub fn refine(&mut self, ticket: Ticket, factor: u32) -> Result<(), (Refusal, Ticket)> {
        match self.refined(&ticket, factor) {
            Ok(finer) => {
                *self = finer;
                Ok(())
            }
            Err(refusal) => Err((refusal, ticket)),
        }
    }

    fn refined(&self, ticket: &Ticket, factor: u32) -> Result<Run<'a>, Refusal> {
        let arrived = matches!(self.stage, Stage::Arrived { .. });
        if !arrived || *ticket != self.ticket() {
            return Err(Refusal::TicketNotAccepted);
        }
        if !(2..=64).contains(&factor) {
            return Err(Refusal::FactorOutOfRange);
        }
        let mesh = factor * self.mesh();
        if mesh > finest(self.goods()) {
            return Err(Refusal::FinerThanFinest);
        }
        let first = self.look_for(1)?;
        let prices: Vec<u32> = first.iter().map(|price| factor * price).collect();
        let goods = self.goods();
        let (triangulation, labelling) = (self.triangulation, self.labelling);
        let mut finer = Run::open(self.number, goods, mesh, &prices, triangulation, labelling)?;
        finer.total = self.total + 1;
        Ok(finer)
    }

    /// The prices of the arrived corner with a label.
    pub fn look_for(&self, good: usize) -> Result<Vec<u32>, Refusal> {
        let Stage::Arrived { dropped } = self.stage else {
            return Err(Refusal::NotArrived);
        };
        if !(1..=self.goods()).contains(&good) {
            return Err(Refusal::NoSuchGood);
        }
        let carries =
            |place: &usize| *place != dropped && usize::from(self.corners[*place].label) == good;
        let place = (0..self.corners.len()).find(carries);
        let place = place.ok_or(Refusal::NoSuchGood)?;
        Ok(self.corners[place].corner.prices())
    }
}
