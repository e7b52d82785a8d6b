//! The open store: its tables and its calls.

use std::collections::VecDeque;

use crate::card::Card;
use crate::denial::{Denial, StoreFault, TapeFault};
use crate::layout::{self, clear_counter, Value, DUMMY, VALUE_LEN};
use crate::mapfile;
use crate::seal::Seal;
use crate::tape::Tape;

pub const MOST_BLOCKS: u32 = 512;
pub const MOST_PLACES: u32 = 1024;
pub const MOST_WAITING: usize = 16;

/// Stands in a table for no place or no block; both are below 1,024.
const NONE: u16 = u16::MAX;

/// What a beat did.
#[derive(Clone, Copy, Debug, PartialEq, Eq)]
pub enum Deed {
    Dummy,
    Landed(u32),
    SealedAgain(u32),
}

#[derive(Clone, Copy, Debug, PartialEq, Eq)]
pub struct Beat {
    pub place: u32,
    pub counter: u32,
    pub deed: Deed,
}

/// Where the landed blocks are, by block and by place.
#[derive(Debug)]
pub(crate) struct Positions {
    place_of: Vec<u16>,
    block_at: Vec<u16>,
    landed: usize,
}

impl Positions {
    /// Tables without a landed block, or nothing where memory is wanting.
    pub(crate) fn empty(blocks: u32, places: u32) -> Option<Self> {
        Some(Positions { place_of: table(blocks)?, block_at: table(places)?, landed: 0 })
    }

    fn place_of(&self, block: u32) -> Option<u32> {
        Some(self.place_of[block as usize]).filter(|&place| place != NONE).map(u32::from)
    }

    fn block_at(&self, place: u32) -> Option<u32> {
        Some(self.block_at[place as usize]).filter(|&block| block != NONE).map(u32::from)
    }

    /// Adds an entry of a map file; false where it is out of range or its place is taken.
    pub(crate) fn list(&mut self, block: u16, place: u16) -> bool {
        let (Some(of), Some(at)) =
            (self.place_of.get_mut(usize::from(block)), self.block_at.get_mut(usize::from(place)))
        else {
            return false;
        };
        if *at != NONE {
            return false;
        }
        (*of, *at) = (place, block);
        self.landed += 1;
        true
    }

    /// Moves a block to a vacant place.
    fn land(&mut self, block: u32, place: u32) {
        let former = std::mem::replace(&mut self.place_of[block as usize], place as u16);
        match self.block_at.get_mut(usize::from(former)) {
            Some(at) => *at = NONE,
            None => self.landed += 1,
        }
        self.block_at[place as usize] = block as u16;
    }

    /// The landed blocks and their places, with rising blocks.
    fn entries(&self) -> impl Iterator<Item = (u16, u16)> + '_ {
        let placed = self.place_of.iter().enumerate().filter(|(_, &place)| place != NONE);
        placed.map(|(block, &place)| (block as u16, place))
    }
}

fn table(len: u32) -> Option<Vec<u16>> {
    let mut table = Vec::new();
    table.try_reserve_exact(len as usize).ok()?;
    table.resize(len as usize, NONE);
    Some(table)
}

#[derive(Debug)]
struct Waiting {
    block: u32,
    value: Value,
}

/// A store whose making was granted.
#[derive(Debug)]
pub struct Engine<C, S, T> {
    pub(crate) card: C,
    pub(crate) seal: S,
    pub(crate) tape: T,
    last: u32,
    positions: Positions,
    waiting: VecDeque<Waiting>,
}

impl<C: Card, S: Seal, T: Tape> Engine<C, S, T> {
    pub(crate) fn new(ends: (C, S, T), last: u32, positions: Positions) -> Self {
        let (card, seal, tape) = ends;
        Engine { card, seal, tape, last, positions, waiting: VecDeque::with_capacity(MOST_WAITING) }
    }

    /// N, the number of blocks.
    pub fn blocks(&self) -> u32 {
        self.positions.place_of.len() as u32
    }

    /// P, the number of places.
    pub fn places(&self) -> u32 {
        self.positions.block_at.len() as u32
    }

    /// L, the number of landed blocks.
    pub fn landed(&self) -> usize {
        self.positions.landed
    }

    /// How many blocks wait.
    pub fn waiting(&self) -> usize {
        self.waiting.len()
    }

    pub fn last_counter(&self) -> u32 {
        self.last
    }

    fn known(&self, block: u32) -> Result<(), StoreFault> {
        if block < self.blocks() {
            Ok(())
        } else {
            Err(StoreFault::NoSuchBlock)
        }
    }

    /// Lets a value wait for its landing.
    pub fn write(&mut self, block: u32, value: &[u8]) -> Result<(), Denial> {
        self.known(block)?;
        let value = layout::filled(value).ok_or(StoreFault::ValueLength)?;
        if let Some(waiting) = self.waiting.iter_mut().find(|waiting| waiting.block == block) {
            waiting.value = value;
        } else if self.waiting.len() < MOST_WAITING {
            self.waiting.push_back(Waiting { block, value });
        } else {
            return Err(StoreFault::WaitingFull.into());
        }
        Ok(())
    }

    /// The latest value of a block, into a buffer of 48 bytes.
    pub fn read(&self, block: u32, buffer: &mut [u8]) -> Result<(), Denial> {
        self.known(block)?;
        let value: &mut Value = buffer.try_into().map_err(|_| StoreFault::BufferLength)?;
        if let Some(waiting) = self.waiting.iter().find(|waiting| waiting.block == block) {
            *value = waiting.value;
        } else if let Some(place) = self.positions.place_of(block) {
            let mut body = DUMMY;
            self.seal.open(place, self.card.view(place)?, &mut body)?;
            *value = *layout::value_of(&body);
        } else {
            *value = [0; VALUE_LEN];
        }
        Ok(())
    }

    /// Rewrites one record, at a place off the tape.
    pub fn beat(&mut self) -> Result<Beat, Denial> {
        if !self.tape.more() {
            return Err(TapeFault::Spent.into());
        }
        let counter = self.last.checked_add(1).ok_or(StoreFault::CountersSpent)?;
        let place = self.tape.draw()? % self.places();
        let deed = self.rewrite(place, counter)?;
        self.last = counter;
        Ok(Beat { place, counter, deed })
    }

    fn rewrite(&mut self, place: u32, counter: u32) -> Result<Deed, Denial> {
        let record = self.card.view_mut(place)?;
        if let Some(block) = self.positions.block_at(place) {
            let mut body = DUMMY;
            self.seal.open(place, record, &mut body)?;
            self.seal.seal(place, counter, &body, record);
            Ok(Deed::SealedAgain(block))
        } else if let Some(Waiting { block, value }) = self.waiting.pop_front() {
            self.seal.seal(place, counter, &layout::body(block, &value), record);
            self.positions.land(block, place);
            Ok(Deed::Landed(block))
        } else {
            self.seal.seal(place, counter, &DUMMY, record);
            Ok(Deed::Dummy)
        }
    }

    /// The map file at the front of `buffer`, and its length.
    pub fn save(&self, buffer: &mut [u8]) -> Result<usize, Denial> {
        if !self.waiting.is_empty() {
            return Err(StoreFault::BlockWaits.into());
        }
        let head = (self.blocks() as u16, self.places() as u16, self.landed(), self.last);
        let length = mapfile::write(head, self.positions.entries(), buffer);
        Ok(length.ok_or(StoreFault::BufferLength)?)
    }

    /// The card's clear counters in place order, into a buffer of P numbers.
    pub fn face(&self, buffer: &mut [u32]) -> Result<(), Denial> {
        if buffer.len() != self.places() as usize {
            return Err(StoreFault::BufferLength.into());
        }
        for (place, number) in (0..).zip(buffer) {
            *number = clear_counter(self.card.view(place)?);
        }
        Ok(())
    }
}
