//! Cards keep records, by place.

use crate::denial::CardFault;
use crate::layout::{Record, RECORD_LEN};

/// The most records that any card counts.
pub const MOST_RECORDS: u32 = 65_536;

pub trait Card {
    /// How many records there are; it never changes.
    fn count(&self) -> u32;

    /// The record at a place.
    fn view(&self, place: u32) -> Result<&Record, CardFault>;

    /// The record at a place, to be altered.
    fn view_mut(&mut self, place: u32) -> Result<&mut Record, CardFault>;

    /// Copies a record out.
    fn get(&self, place: u32, buffer: &mut [u8]) -> Result<(), CardFault> {
        let record = self.view(place)?;
        *record_in_mut(buffer)? = *record;
        Ok(())
    }

    /// Replaces a record.
    fn put(&mut self, place: u32, bytes: &[u8]) -> Result<(), CardFault> {
        let record = self.view_mut(place)?;
        *record = *<&Record>::try_from(bytes).map_err(|_| CardFault::WrongLength)?;
        Ok(())
    }
}

fn record_in_mut(buffer: &mut [u8]) -> Result<&mut Record, CardFault> {
    buffer.try_into().map_err(|_| CardFault::WrongLength)
}

impl<C: Card + ?Sized> Card for Box<C> {
    fn count(&self) -> u32 {
        (**self).count()
    }

    fn view(&self, place: u32) -> Result<&Record, CardFault> {
        (**self).view(place)
    }

    fn view_mut(&mut self, place: u32) -> Result<&mut Record, CardFault> {
        (**self).view_mut(place)
    }
}

/// Bytes that are lent to it, 64 to a place.
#[derive(Debug)]
pub struct ByteCard<'a> {
    records: &'a mut [Record],
}

impl<'a> ByteCard<'a> {
    pub fn new(bytes: &'a mut [u8]) -> Self {
        let (records, _) = bytes.as_chunks_mut::<RECORD_LEN>();
        let counted = records.len().min(MOST_RECORDS as usize);
        ByteCard { records: &mut records[..counted] }
    }
}

impl Card for ByteCard<'_> {
    fn count(&self) -> u32 {
        self.records.len() as u32
    }

    #[inline]
    fn view(&self, place: u32) -> Result<&Record, CardFault> {
        self.records.get(place as usize).ok_or(CardFault::NoSuchPlace(place))
    }

    #[inline]
    fn view_mut(&mut self, place: u32) -> Result<&mut Record, CardFault> {
        self.records.get_mut(place as usize).ok_or(CardFault::NoSuchPlace(place))
    }
}

/// A part of a card, from a place on.
#[derive(Debug)]
pub struct WindowCard<C> {
    below: C,
    start: u32,
    count: u32,
}

impl<C: Card> WindowCard<C> {
    pub fn new(below: C, start: u32, len: u32) -> Self {
        let count = len.min(below.count().saturating_sub(start));
        WindowCard { below, start, count }
    }

    fn place_below(&self, place: u32) -> Result<u32, CardFault> {
        if place < self.count {
            Ok(self.start + place)
        } else {
            Err(CardFault::NoSuchPlace(place))
        }
    }
}

impl<C: Card> Card for WindowCard<C> {
    fn count(&self) -> u32 {
        self.count
    }

    #[inline]
    fn view(&self, place: u32) -> Result<&Record, CardFault> {
        self.below.view(self.place_below(place)?)
    }

    #[inline]
    fn view_mut(&mut self, place: u32) -> Result<&mut Record, CardFault> {
        self.below.view_mut(self.place_below(place)?)
    }
}

/// Two cards: even places lie on the first, odd ones on the second.
#[derive(Debug)]
pub struct SplitCard<A, B> {
    even: A,
    odd: B,
    count: u32,
}

impl<A: Card, B: Card> SplitCard<A, B> {
    pub fn new(even: A, odd: B) -> Self {
        let count = (2 * even.count().min(odd.count())).min(MOST_RECORDS);
        SplitCard { even, odd, count }
    }
}

impl<A: Card, B: Card> Card for SplitCard<A, B> {
    fn count(&self) -> u32 {
        self.count
    }

    #[inline]
    fn view(&self, place: u32) -> Result<&Record, CardFault> {
        if place >= self.count {
            Err(CardFault::NoSuchPlace(place))
        } else if place.is_multiple_of(2) {
            self.even.view(place / 2)
        } else {
            self.odd.view(place / 2)
        }
    }

    #[inline]
    fn view_mut(&mut self, place: u32) -> Result<&mut Record, CardFault> {
        if place >= self.count {
            Err(CardFault::NoSuchPlace(place))
        } else if place.is_multiple_of(2) {
            self.even.view_mut(place / 2)
        } else {
            self.odd.view_mut(place / 2)
        }
    }
}
