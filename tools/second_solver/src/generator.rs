//! Markets, sheets and start points by chance, extreme ones among them.

use crate::cell::Triangulation;
use crate::labelling::Sheet;
use crate::market::{Market, Trader};
use crate::point::PricePoint;
use crate::random::Random;
use crate::refusal::Refusal;

const EXTREMES: [u16; 3] = [0, 1, 65_535];

/// A market that keeps all rules.
pub fn market(random: &mut Random) -> Market {
    let goods = random.between(2, 8);
    let sum = match random.below(5) {
        0 => 1,
        1 => 1000,
        2 => random.between(2, 10),
        _ => random.between(1, 1000),
    };
    let count = match random.below(6) {
        0 => 1,
        1 => 16,
        2 => goods,
        _ => random.between(1, 16),
    };
    let owning = random.below(6);
    let weighing = random.below(6);
    let trader = |random: &mut Random, number: usize| Trader {
        owns: endowments(random, owning, number, goods),
        weighs: weights(random, weighing, number, goods, sum as u16),
    };
    let traders = (0..count).map(|number| trader(random, number)).collect();
    let sum = sum as u16;
    let mut market = Market {
        goods,
        sum,
        traders,
    };
    if owning == 5 {
        give_to_one(random, &mut market);
    }
    give_unowned(random, &mut market);
    market
}

fn endowments(random: &mut Random, style: usize, number: usize, goods: usize) -> Vec<u16> {
    let one = |random: &mut Random, good: usize| match style {
        0 => random.pick(&EXTREMES),
        1 => random.below(10) as u16,
        2 if number % goods == good => random.pick(&[1, 10, 65_535]),
        2 => 0,
        3 if random.one_in(3) => random.below(65_536) as u16,
        3 => random.pick(&EXTREMES),
        _ => random.below(65_536) as u16,
    };
    (0..goods).map(|good| one(random, good)).collect()
}

/// Weights that add up to the sum.
fn weights(random: &mut Random, style: usize, number: usize, goods: usize, sum: u16) -> Vec<u16> {
    let mut weights = vec![0; goods];
    match style {
        0 => weights[random.below(goods)] = sum,
        1 => weights[(number + 1) % goods] = sum,
        2 => {
            let (one, other) = (random.below(goods), (number + 1) % goods);
            let part = random.below(usize::from(sum) + 1) as u16;
            weights[one] += part;
            weights[other] += sum - part;
        }
        3 => {
            let rest = random.below(goods);
            let ones = (0..goods).filter(|_| random.one_in(2)).take(sum.into());
            let ones: Vec<usize> = ones.collect();
            for &good in &ones {
                weights[good] = 1;
            }
            weights[rest] += sum - ones.len() as u16;
        }
        4 => {
            let even = sum / goods as u16;
            weights = vec![even; goods];
            weights[random.below(goods)] += sum - even * goods as u16;
        }
        _ => {
            for _ in 0..sum {
                weights[random.below(goods)] += 1;
            }
        }
    }
    weights
}

/// Leaves each good to one trader only.
fn give_to_one(random: &mut Random, market: &mut Market) {
    for good in 0..market.goods {
        let owner = random.below(market.traders.len());
        for (number, trader) in market.traders.iter_mut().enumerate() {
            if number != owner {
                trader.owns[good] = 0;
            }
        }
    }
}

/// Gives each good that nobody owns to somebody.
fn give_unowned(random: &mut Random, market: &mut Market) {
    for good in 0..market.goods {
        if market.owned(good) == 0 {
            let owner = random.below(market.traders.len());
            market.traders[owner].owns[good] = random.pick(&[1, 1000, 65_535]);
        }
    }
}

/// A sheet for a mesh. One of two has proper labels only.
pub fn sheet(random: &mut Random, mesh: u32) -> Result<Sheet, Refusal> {
    let wild = random.one_in(2);
    let last = mesh as usize;
    let label = |level: usize| match level {
        _ if wild && random.one_in(last + 1) => random.pick(&[0, 1, 2, 3, 9, 255]),
        0 => 1,
        level if level == last => 2,
        _ => random.pick(&[1, 2]),
    };
    let labels: Vec<u8> = (0..=last).map(label).collect();
    Sheet::new(mesh, &labels)
}

/// A point from which the triangulation admits a walk.
pub fn start(
    random: &mut Random,
    triangulation: Triangulation,
    goods: usize,
    mesh: u32,
) -> Result<PricePoint, Refusal> {
    let mut prices = vec![0; goods];
    let mut left = mesh as usize;
    for price in &mut prices[..goods - 1] {
        let taken = random.below(left + 1);
        let taken = match triangulation {
            Triangulation::K1 => taken,
            Triangulation::J1 => taken - taken % 2,
        };
        *price = taken as u32;
        left -= taken;
    }
    prices[goods - 1] = left as u32;
    if triangulation == Triangulation::K1 {
        prices.rotate_left(random.below(goods));
    }
    PricePoint::new(goods, mesh, &prices)
}
