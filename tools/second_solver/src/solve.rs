//! What the program `solve` prints for a market file.

use crate::cell::Triangulation;
use crate::market::Market;
use crate::reader::read;
use crate::refusal::Refusal;
use crate::walk::{Run, Stepped, Ticket};

pub const TRIANGULATION: Triangulation = Triangulation::K1;
const FIRST_MESH: u32 = 4;
const FACTOR: u32 = 2;
const MESHES: usize = 3;
const MOST_STEPS: u64 = 1_000_000;

/// The table of a market, or the line of the first fault.
pub fn solve(bytes: &[u8]) -> String {
    match read(bytes).and_then(|market| table(&market)) {
        Ok(text) => text,
        Err(refusal) => fault_line(refusal),
    }
}

fn fault_line(refusal: Refusal) -> String {
    let carried = refusal.carried().unwrap_or(0);
    format!("fault {} at {}\n", refusal.number(), carried)
}

/// One line for each mesh, up to the first on which the walk does not arrive.
pub fn table(market: &Market) -> Result<String, Refusal> {
    let mut prices = vec![0; market.goods];
    prices[0] = FIRST_MESH;
    let goods = market.goods;
    let mut run = Run::open(0, goods, FIRST_MESH, &prices, TRIANGULATION, market)?;
    let mut text = String::new();
    for mesh in 1..=MESHES {
        let Some(ticket) = reach(&mut run, MOST_STEPS)? else {
            text += &format!("mesh {} open\n", run.mesh());
            break;
        };
        text += &arrival_line(&run)?;
        if mesh < MESHES {
            run.refine(ticket, FACTOR).map_err(|(refusal, _)| refusal)?;
        }
    }
    Ok(text)
}

/// Steps a run at most so many times; the ticket of its arrival, if it arrives.
pub fn reach(run: &mut Run, most: u64) -> Result<Option<Ticket>, Refusal> {
    for _ in 0..most {
        match run.step()? {
            Stepped::Moved => {}
            Stepped::Arrived(ticket) => return Ok(Some(ticket)),
            Stepped::Halted => return Ok(None),
        }
    }
    Ok(None)
}

fn arrival_line(run: &Run) -> Result<String, Refusal> {
    let mut points = Vec::new();
    for good in 1..=run.goods() {
        let prices = run.look_for(good)?;
        let words: Vec<String> = prices.iter().map(u32::to_string).collect();
        points.push(words.join(" "));
    }
    let points = points.join(" | ");
    Ok(format!(
        "mesh {} cells {}: {}\n",
        run.mesh(),
        run.count(),
        points
    ))
}
