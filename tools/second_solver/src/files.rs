//! Market files from a seed: sound ones and damaged ones.

use crate::generator::market;
use crate::market::{Market, Trader};
use crate::random::Random;
use crate::reader::{GOODS, NAME, SUM, TRADER};

/// A tag and a body.
type Field = (u8, Vec<u8>);

/// The file with an index: three of five are sound.
pub fn file(seed: u64, index: u64) -> Vec<u8> {
    let mut random = Random::new(seed, index);
    let market = market(&mut random);
    let fields = fields(&mut random, &market);
    if random.below(5) < 3 {
        return bytes(&fields);
    }
    if random.one_in(2) {
        damaged_bytes(&mut random, bytes(&fields))
    } else {
        damaged_fields(&mut random, fields)
    }
}

fn name(random: &mut Random) -> Vec<u8> {
    let length = match random.below(4) {
        0 => 1,
        1 => 32,
        _ => random.between(1, 32),
    };
    let character = |_| random.between(0x20, 0x7E) as u8;
    (0..length).map(character).collect()
}

fn trader_body(trader: &Trader) -> Vec<u8> {
    let numbers = trader.owns.iter().chain(&trader.weighs);
    numbers.flat_map(|number| number.to_be_bytes()).collect()
}

fn fields(random: &mut Random, market: &Market) -> Vec<Field> {
    let mut fields = vec![(GOODS, vec![market.goods as u8])];
    for _ in 0..market.goods {
        fields.push((NAME, name(random)));
    }
    fields.push((SUM, market.sum.to_be_bytes().to_vec()));
    let traders = market.traders.iter();
    fields.extend(traders.map(|trader| (TRADER, trader_body(trader))));
    fields
}

fn bytes(fields: &[Field]) -> Vec<u8> {
    let mut bytes = Vec::new();
    for (tag, body) in fields {
        bytes.push(*tag);
        bytes.extend((body.len() as u16).to_be_bytes());
        bytes.extend(body);
    }
    bytes
}

fn some_bytes(random: &mut Random, length: usize) -> Vec<u8> {
    (0..length).map(|_| random.below(256) as u8).collect()
}

/// A byte changed, or the file cut or lengthened.
fn damaged_bytes(random: &mut Random, mut bytes: Vec<u8>) -> Vec<u8> {
    let place = random.below(bytes.len());
    match random.below(9) {
        0 | 1 => bytes[place] = random.below(256) as u8,
        2 => bytes[place] = bytes[place].wrapping_add(random.pick(&[1, 255])),
        3 => bytes[place] = random.pick(&[0, 1, 2, 3, 4, 8, 9, 0x1F, 0x20, 0x7E, 0x7F, 255]),
        4 => bytes.truncate(place),
        5 => bytes.truncate(bytes.len() - random.between(1, 3)),
        6 => {
            let length = random.between(1, 4);
            bytes.extend(some_bytes(random, length));
        }
        7 => {
            let length = random.pick(&[3, 40, 900, 5_000, 70_000]);
            bytes.extend(some_bytes(random, length));
        }
        _ => {
            let length = random.below(60);
            bytes = some_bytes(random, length);
        }
    }
    bytes
}

/// Two fields swapped, a field doubled or left out, a body altered, too many traders, a limit passed.
fn damaged_fields(random: &mut Random, mut fields: Vec<Field>) -> Vec<u8> {
    let place = random.below(fields.len());
    let other = random.below(fields.len());
    let field = fields[place].clone();
    match random.below(10) {
        0 | 1 => fields.swap(place, other),
        2 => fields.insert(other, field),
        3 => fields.push(field),
        4 => drop(fields.remove(place)),
        5 => {
            let kept = random.below(field.1.len() + 1);
            fields[place].1.truncate(kept);
        }
        6 => {
            let trader = fields[fields.len() - 1].clone();
            fields.resize(fields.len() + random.between(1, 16), trader);
        }
        7 => altered_weights(random, &mut fields),
        8 => past_a_limit(random, &mut fields),
        _ => unowned_good(random, &mut fields),
    }
    bytes(&fields)
}

/// Alters the weights of a trader, often so that they add up to the sum but for a multiple of 65,536.
fn altered_weights(random: &mut Random, fields: &mut [Field]) {
    let goods = usize::from(fields[0].1[0]);
    let place = random.between(goods + 2, fields.len() - 1);
    let body = &mut fields[place].1;
    let one = goods + random.below(goods);
    let next = goods + (one + 1) % goods;
    let (up, down) = random.pick(&[
        (1, 0),
        (65_535, 0),
        (32_768, 32_768),
        (65_535, 1),
        (1000, 0),
    ]);
    for (at, change) in [(one, up), (next, down)] {
        let two = [body[2 * at], body[2 * at + 1]];
        let new = u16::from_be_bytes(two).wrapping_add(change);
        body[2 * at..2 * at + 2].copy_from_slice(&new.to_be_bytes());
    }
}

/// Takes a good or two from all traders.
fn unowned_good(random: &mut Random, fields: &mut [Field]) {
    let goods = usize::from(fields[0].1[0]);
    for _ in 0..random.between(1, 2) {
        let good = random.below(goods);
        for (_, body) in &mut fields[goods + 2..] {
            body[2 * good..2 * good + 2].fill(0);
        }
    }
}

/// Goes past a limit by one, where all else fits.
fn past_a_limit(random: &mut Random, fields: &mut [Field]) {
    let goods = usize::from(fields[0].1[0]);
    let name = random.between(1, goods);
    match random.below(6) {
        0 => fields[0].1[0] = random.pick(&[0, 1, 9]),
        1 => fields[name].1 = vec![0x41; 33],
        2 => fields[name].1.clear(),
        3 => fields[name].1.push(random.pick(&[0x1F, 0x7F])),
        4 => weigh_one_only(fields, goods, 1001),
        _ => weigh_one_only(fields, goods, 0),
    }
}

/// Makes all traders weigh the first good only.
fn weigh_one_only(fields: &mut [Field], goods: usize, sum: u16) {
    fields[goods + 1].1 = sum.to_be_bytes().to_vec();
    for (_, body) in &mut fields[goods + 2..] {
        body[2 * goods..].fill(0);
        body[2 * goods..2 * goods + 2].copy_from_slice(&sum.to_be_bytes());
    }
}
