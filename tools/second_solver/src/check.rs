//! The mode `check`: walks over markets and sheets by chance, each seen by another road too.

use std::collections::HashMap;

use crate::cell::Triangulation;
use crate::generator;
use crate::labelling::Labelling;
use crate::listing::{bound, Listing};
use crate::other_road::{self, Agreed, Task};
use crate::random::Random;
use crate::refusal::Refusal;

const MOST_CELLS: u64 = 15_000;
const FINEST: u32 = 64;
const FINEST_FOR_THREE: u32 = 24;

#[derive(Default)]
struct Tally {
    walks: [u64; 9],
    sheets: u64,
    halts: u64,
    cells: u64,
    longest: u64,
    clearing: usize,
    many_clearing: u64,
}

impl Tally {
    fn add(&mut self, agreed: &Agreed) {
        self.halts += u64::from(!agreed.arrived);
        self.cells += agreed.cells_entered;
        self.longest = self.longest.max(agreed.cells_entered);
        self.clearing += agreed.clearing_facets;
        self.many_clearing += u64::from(agreed.clearing_facets > 1);
    }

    fn print(&self) {
        let walks: u64 = self.walks.iter().sum();
        println!(
            "{walks} walks over markets and {} over sheets agree",
            self.sheets
        );
        for goods in 2..=8 {
            println!("  {} over markets of {goods} goods", self.walks[goods]);
        }
        println!(
            "  {} cells entered, {} on the longest walk",
            self.cells, self.longest
        );
        println!("  {} halts", self.halts);
        println!("  {} full facets on real walls in all", self.clearing);
        println!(
            "  {} walks with more than one to arrive at",
            self.many_clearing
        );
    }
}

type Listings = HashMap<(Triangulation, usize, u32), Listing>;

/// The finest mesh whose cells are listed.
fn finest_listed(goods: usize) -> u32 {
    let finest = if goods == 2 { FINEST } else { FINEST_FOR_THREE };
    let fits = |mesh: &u32| bound(goods, *mesh) <= MOST_CELLS;
    (1..=finest).rev().find(fits).unwrap_or(1)
}

fn listing(listings: &mut Listings, key: (Triangulation, usize, u32)) -> Result<&Listing, String> {
    let (triangulation, goods, mesh) = key;
    let entry = listings.entry(key);
    let listing = entry.or_insert_with(|| Listing::new(triangulation, goods, mesh));
    if listing.cells.len() as u64 != bound(goods, mesh) {
        return Err(format!("{key:?}: {} cells are listed", listing.cells.len()));
    }
    Ok(listing)
}

/// Checks one walk from a start by chance.
fn check_one(
    random: &mut Random,
    listings: &mut Listings,
    key: (Triangulation, usize, u32),
    labelling: &dyn Labelling,
) -> Result<Agreed, String> {
    let (triangulation, goods, mesh) = key;
    let start = generator::start(random, triangulation, goods, mesh).map_err(told)?;
    let task = Task {
        triangulation,
        start,
        labelling,
    };
    let agreed = other_road::check(listing(listings, key)?, &task);
    agreed.map_err(|what| format!("{key:?} from {:?}: {what}", task.start.prices()))
}

fn told(refusal: Refusal) -> String {
    format!("refusal {}", refusal.number())
}

/// Checks the market and the sheet with an index, each in K1 and in J1.
fn check_index(
    seed: u64,
    index: u64,
    listings: &mut Listings,
    tally: &mut Tally,
) -> Result<(), String> {
    let mut random = Random::new(seed, index);
    let market = generator::market(&mut random);
    let goods = market.goods;
    let mesh = random.between(1, finest_listed(goods) as usize) as u32;
    let sheet_mesh = random.between(1, 64) as u32;
    let sheet = generator::sheet(&mut random, sheet_mesh).map_err(told)?;
    for triangulation in [Triangulation::K1, Triangulation::J1] {
        let key = (triangulation, goods, mesh);
        tally.add(&check_one(&mut random, listings, key, &market)?);
        tally.walks[goods] += 1;
        let key = (triangulation, 2, sheet_mesh);
        tally.add(&check_one(&mut random, listings, key, &sheet)?);
        tally.sheets += 1;
    }
    Ok(())
}

/// Checks so many indices; stops at the first that does not agree.
pub fn check(seed: u64, count: u64) -> Result<(), String> {
    let mut listings = Listings::new();
    let mut tally = Tally::default();
    for index in 0..count {
        check_index(seed, index, &mut listings, &mut tally)
            .map_err(|what| format!("seed {seed}, index {index}: {what}"))?;
    }
    tally.print();
    Ok(())
}
