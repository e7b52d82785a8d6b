//! Every refusal: its number, its layer, the place that it names, and its cause.

use std::fmt;

#[derive(Clone, Copy, Debug, PartialEq, Eq)]
pub enum CardFault {
    /// 15: the place is not below the card's count.
    NoSuchPlace(u32),
    /// 16: a record or a buffer for one is not 64 bytes.
    WrongLength,
}

#[derive(Clone, Copy, Debug, PartialEq, Eq)]
pub enum SealFault {
    /// 16: a body is not 52 bytes or a record not 64.
    WrongLength,
    /// 17: the tag is not the one that the seal's rule gives.
    WrongTag(u32),
}

#[derive(Clone, Copy, Debug, PartialEq, Eq)]
pub enum TapeFault {
    /// 13: no word is left.
    Spent,
}

#[derive(Clone, Copy, Debug, PartialEq, Eq)]
pub enum StoreFault {
    /// 1: the map file's length is wrong.
    MapLength,
    /// 2: the number of blocks is 0 or above 512.
    BlockCount,
    /// 3: the card has the wrong number of places.
    PlaceCount,
    /// 4: an entry of the map file is out of range or out of order.
    MapEntry,
    /// 5: this place's clear counter is above the file's last counter.
    CounterAbove(u32),
    /// 6: this listed place does not open; with the seal's own denial.
    NotOpening(u32, SealFault),
    /// 7: this listed place opens to another block.
    OtherBlock(u32),
    /// 8: there is no such block.
    NoSuchBlock,
    /// 9: the value is longer than 48 bytes.
    ValueLength,
    /// 10: a block waits.
    BlockWaits,
    /// 11: the buffer's length is wrong.
    BufferLength,
    /// 12: the waiting list is full.
    WaitingFull,
    /// 14: the last counter is used.
    CountersSpent,
}

/// A refusal of any layer.
#[derive(Clone, Copy, Debug, PartialEq, Eq)]
pub enum Denial {
    Card(CardFault),
    Seal(SealFault),
    Tape(TapeFault),
    Store(StoreFault),
    /// Want of memory in a making; it has no number.
    NoMemory,
}

impl Denial {
    /// The number in the table of denials; want of memory has none.
    pub fn number(self) -> Option<u8> {
        Some(match self {
            Denial::Card(fault) => fault.number(),
            Denial::Seal(fault) => fault.number(),
            Denial::Tape(TapeFault::Spent) => 13,
            Denial::Store(fault) => fault.number(),
            Denial::NoMemory => return None,
        })
    }

    pub fn layer(self) -> &'static str {
        match self {
            Denial::Card(_) => "card",
            Denial::Seal(_) => "seal",
            Denial::Tape(_) => "tape",
            Denial::Store(_) | Denial::NoMemory => "store",
        }
    }

    pub fn place(self) -> Option<u32> {
        match self {
            Denial::Card(CardFault::NoSuchPlace(place))
            | Denial::Seal(SealFault::WrongTag(place))
            | Denial::Store(
                StoreFault::CounterAbove(place)
                | StoreFault::NotOpening(place, _)
                | StoreFault::OtherBlock(place),
            ) => Some(place),
            _ => None,
        }
    }

    /// The seal's denial that 6 holds.
    pub fn cause(self) -> Option<SealFault> {
        match self {
            Denial::Store(StoreFault::NotOpening(_, cause)) => Some(cause),
            _ => None,
        }
    }
}

impl CardFault {
    pub fn number(self) -> u8 {
        match self {
            CardFault::NoSuchPlace(_) => 15,
            CardFault::WrongLength => 16,
        }
    }
}

impl SealFault {
    pub fn number(self) -> u8 {
        match self {
            SealFault::WrongLength => 16,
            SealFault::WrongTag(_) => 17,
        }
    }
}

impl StoreFault {
    pub fn number(self) -> u8 {
        match self {
            StoreFault::MapLength => 1,
            StoreFault::BlockCount => 2,
            StoreFault::PlaceCount => 3,
            StoreFault::MapEntry => 4,
            StoreFault::CounterAbove(_) => 5,
            StoreFault::NotOpening(..) => 6,
            StoreFault::OtherBlock(_) => 7,
            StoreFault::NoSuchBlock => 8,
            StoreFault::ValueLength => 9,
            StoreFault::BlockWaits => 10,
            StoreFault::BufferLength => 11,
            StoreFault::WaitingFull => 12,
            StoreFault::CountersSpent => 14,
        }
    }
}

/// As the program `dock` prints it: `6 store place 2 (17 seal place 2)`.
impl fmt::Display for Denial {
    fn fmt(&self, f: &mut fmt::Formatter) -> fmt::Result {
        let Some(number) = self.number() else {
            return f.write_str("NoMemory");
        };
        write!(f, "{number} {}", self.layer())?;
        if let Some(place) = self.place() {
            write!(f, " place {place}")?;
        }
        match self.cause() {
            Some(cause) => write!(f, " ({})", Denial::Seal(cause)),
            None => Ok(()),
        }
    }
}

impl std::error::Error for Denial {}

impl From<CardFault> for Denial {
    fn from(fault: CardFault) -> Self {
        Denial::Card(fault)
    }
}

impl From<SealFault> for Denial {
    fn from(fault: SealFault) -> Self {
        Denial::Seal(fault)
    }
}

impl From<TapeFault> for Denial {
    fn from(fault: TapeFault) -> Self {
        Denial::Tape(fault)
    }
}

impl From<StoreFault> for Denial {
    fn from(fault: StoreFault) -> Self {
        Denial::Store(fault)
    }
}
