//! Refusals, with their numbers and what they carry.

#[derive(Clone, Copy, Debug, PartialEq, Eq)]
pub enum Refusal {
    GoodsOutOfRange,
    MeshOutOfRange,
    NotAPricePoint,
    NotAdmitted,
    TicketNotAccepted,
    FactorOutOfRange,
    FinerThanFinest,
    NotWalking,
    NotArrived,
    WayBlocked,
    NoSuchGood,
    NoSuchPlace,
    SheetMeshOutOfRange,
    SheetLength,
    Truncated(usize),
    TagNotDue(usize),
    LengthWrong(usize),
    ValueOutOfRange(usize),
    WeightsOffSum(usize),
    GoodUnowned(usize),
}

impl Refusal {
    pub fn number(self) -> u8 {
        match self {
            Refusal::GoodsOutOfRange => 1,
            Refusal::MeshOutOfRange => 2,
            Refusal::NotAPricePoint => 3,
            Refusal::NotAdmitted => 4,
            Refusal::TicketNotAccepted => 5,
            Refusal::FactorOutOfRange => 6,
            Refusal::FinerThanFinest => 7,
            Refusal::NotWalking => 8,
            Refusal::NotArrived => 9,
            Refusal::WayBlocked => 10,
            Refusal::NoSuchGood => 11,
            Refusal::NoSuchPlace => 12,
            Refusal::SheetMeshOutOfRange => 15,
            Refusal::SheetLength => 16,
            Refusal::Truncated(_) => 21,
            Refusal::TagNotDue(_) => 22,
            Refusal::LengthWrong(_) => 23,
            Refusal::ValueOutOfRange(_) => 24,
            Refusal::WeightsOffSum(_) => 25,
            Refusal::GoodUnowned(_) => 26,
        }
    }

    /// The place of the faulty field, or the good that nobody owns.
    pub fn carried(self) -> Option<usize> {
        match self {
            Refusal::Truncated(n)
            | Refusal::TagNotDue(n)
            | Refusal::LengthWrong(n)
            | Refusal::ValueOutOfRange(n)
            | Refusal::WeightsOffSum(n)
            | Refusal::GoodUnowned(n) => Some(n),
            _ => None,
        }
    }
}
