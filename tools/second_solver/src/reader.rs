//! The reader of market files.

use crate::market::{Market, Trader};
use crate::refusal::Refusal;

pub const GOODS: u8 = 1;
pub const NAME: u8 = 2;
pub const SUM: u8 = 3;
pub const TRADER: u8 = 4;

const MOST_TRADERS: usize = 16;

/// What was read so far, from the fields before the place.
#[derive(Default)]
struct SoFar {
    place: usize,
    goods: Option<usize>,
    names: usize,
    sum: Option<u16>,
    traders: Vec<Trader>,
}

impl SoFar {
    /// The tag that is due at the place, if any.
    fn due(&self) -> Option<u8> {
        match (self.goods, self.sum) {
            (None, _) => Some(GOODS),
            (Some(goods), _) if self.names < goods => Some(NAME),
            (_, None) => Some(SUM),
            _ if self.traders.len() < MOST_TRADERS => Some(TRADER),
            _ => None,
        }
    }

    fn length_fits(&self, tag: u8, length: usize) -> bool {
        match tag {
            GOODS => length == 1,
            NAME => (1..=32).contains(&length),
            SUM => length == 2,
            _ => Some(length) == self.goods.map(|goods| 4 * goods),
        }
    }

    fn take(&mut self, tag: u8, body: &[u8]) -> Result<(), Refusal> {
        let out_of_range = Refusal::ValueOutOfRange(self.place);
        match tag {
            GOODS if (2..=8).contains(&body[0]) => self.goods = Some(usize::from(body[0])),
            NAME if body.iter().all(|c| (0x20..=0x7E).contains(c)) => self.names += 1,
            SUM if (1..=1000).contains(&number(body)) => self.sum = Some(number(body)),
            TRADER => self.take_trader(body)?,
            _ => return Err(out_of_range),
        }
        Ok(())
    }

    fn take_trader(&mut self, body: &[u8]) -> Result<(), Refusal> {
        let numbers: Vec<u16> = body.chunks(2).map(number).collect();
        let (owns, weighs) = numbers.split_at(numbers.len() / 2);
        let sum: u64 = weighs.iter().map(|&weight| u64::from(weight)).sum();
        if Some(sum) != self.sum.map(u64::from) {
            return Err(Refusal::WeightsOffSum(self.place));
        }
        let (owns, weighs) = (owns.to_vec(), weighs.to_vec());
        self.traders.push(Trader { owns, weighs });
        Ok(())
    }
}

fn number(two: &[u8]) -> u16 {
    u16::from_be_bytes([two[0], two[1]])
}

/// Reads the field at the place and goes behind it.
fn read_field(so_far: &mut SoFar, bytes: &[u8]) -> Result<(), Refusal> {
    let place = so_far.place;
    let left = &bytes[place..];
    if left.len() < 3 {
        return Err(Refusal::Truncated(place));
    }
    let tag = left[0];
    if so_far.due() != Some(tag) {
        return Err(Refusal::TagNotDue(place));
    }
    let length = usize::from(number(&left[1..3]));
    if !so_far.length_fits(tag, length) {
        return Err(Refusal::LengthWrong(place));
    }
    let body = left.get(3..3 + length).ok_or(Refusal::Truncated(place))?;
    so_far.take(tag, body)?;
    so_far.place = place + 3 + length;
    Ok(())
}

/// The market of a file, or the refusal for its first fault.
pub fn read(bytes: &[u8]) -> Result<Market, Refusal> {
    let mut so_far = SoFar::default();
    while so_far.traders.is_empty() || so_far.place < bytes.len() {
        read_field(&mut so_far, bytes)?;
    }
    let market = Market {
        goods: so_far.goods.unwrap_or(0),
        sum: so_far.sum.unwrap_or(0),
        traders: so_far.traders,
    };
    match (0..market.goods).find(|&good| market.owned(good) == 0) {
        Some(good) => Err(Refusal::GoodUnowned(good + 1)),
        None => Ok(market),
    }
}
