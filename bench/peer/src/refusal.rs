//! The numbered grounds on which a call is refused.

#[derive(Clone, Copy, PartialEq, Eq, Debug)]
pub enum Refusal {
    PitSize = 1,
    OwnNumber = 2,
    Shelf = 3,
    TickNotAbove = 4,
    Turn = 5,
    Output = 6,
    Orders = 7,
    Mark = 8,
    Length = 9,
    Form = 10,
    ViewAhead = 11,
    ViewPassed = 12,
    LeaderSeal = 13,
    Certificate = 14,
    ShelfFull = 15,
    BlockNotHeld = 16,
    VoterSeal = 17,
}

impl Refusal {
    pub fn number(self) -> u8 {
        self as u8
    }
}
