//! The makings, and the store that they give: open, or shut by a denial.

use crate::card::Card;
use crate::denial::{Denial, StoreFault};
use crate::engine::{Beat, Engine, Positions, MOST_BLOCKS, MOST_PLACES};
use crate::layout::{block_of, clear_counter, DUMMY};
use crate::mapfile::MapFile;
use crate::seal::Seal;
use crate::tape::Tape;

/// A store. A shut one answers every call with the denial of its making.
#[derive(Debug)]
pub enum Store<C, S, T> {
    Open(Engine<C, S, T>),
    Shut(Denial, (C, S, T)),
}

impl<C: Card, S: Seal, T: Tape> Store<C, S, T> {
    /// Fills the card with dummies, for a store of so many blocks.
    pub fn format(blocks: u32, card: C, seal: S, tape: T) -> Self {
        let mut ends = (card, seal, tape);
        match formatted(blocks, &mut ends) {
            Ok((last, positions)) => Store::Open(Engine::new(ends, last, positions)),
            Err(denial) => Store::Shut(denial, ends),
        }
    }

    /// Takes up a store from its map file and card. The card is not written.
    pub fn resume(map: &[u8], card: C, seal: S, tape: T) -> Self {
        match resumed(map, &card, &seal) {
            Ok((last, positions)) => Store::Open(Engine::new((card, seal, tape), last, positions)),
            Err(denial) => Store::Shut(denial, (card, seal, tape)),
        }
    }

    /// The open store, or the denial of the making.
    pub fn engine(&self) -> Result<&Engine<C, S, T>, Denial> {
        match self {
            Store::Open(engine) => Ok(engine),
            Store::Shut(denial, _) => Err(*denial),
        }
    }

    /// The open store, or the denial of the making.
    pub fn engine_mut(&mut self) -> Result<&mut Engine<C, S, T>, Denial> {
        match self {
            Store::Open(engine) => Ok(engine),
            Store::Shut(denial, _) => Err(*denial),
        }
    }

    /// Gives the ends back.
    pub fn into_ends(self) -> (C, S, T) {
        match self {
            Store::Open(engine) => (engine.card, engine.seal, engine.tape),
            Store::Shut(_, ends) => ends,
        }
    }

    pub fn write(&mut self, block: u32, value: &[u8]) -> Result<(), Denial> {
        self.engine_mut()?.write(block, value)
    }

    pub fn read(&self, block: u32, buffer: &mut [u8]) -> Result<(), Denial> {
        self.engine()?.read(block, buffer)
    }

    pub fn beat(&mut self) -> Result<Beat, Denial> {
        self.engine_mut()?.beat()
    }

    pub fn save(&self, buffer: &mut [u8]) -> Result<usize, Denial> {
        self.engine()?.save(buffer)
    }

    pub fn face(&self, buffer: &mut [u32]) -> Result<(), Denial> {
        self.engine()?.face(buffer)
    }
}

fn formatted<C: Card, S: Seal, T>(
    blocks: u32,
    (card, seal, _): &mut (C, S, T),
) -> Result<(u32, Positions), Denial> {
    let places = card.count();
    fitting(blocks, places)?;
    let positions = Positions::empty(blocks, places).ok_or(Denial::NoMemory)?;
    for place in 0..places {
        seal.seal(place, place + 1, &DUMMY, card.view_mut(place)?);
    }
    Ok((places, positions))
}

fn resumed<C: Card, S: Seal>(map: &[u8], card: &C, seal: &S) -> Result<(u32, Positions), Denial> {
    let file = MapFile::parse(map)?;
    let (blocks, places) = (u32::from(file.blocks), card.count());
    fitting(blocks, places)?;
    if places != u32::from(file.places) {
        return Err(StoreFault::PlaceCount.into());
    }
    let positions = listed(&file)?;
    for place in 0..places {
        if clear_counter(card.view(place)?) > file.last {
            return Err(StoreFault::CounterAbove(place).into());
        }
    }
    let mut body = DUMMY;
    for (block, place) in file.entries() {
        let place = u32::from(place);
        let opened = seal.open(place, card.view(place)?, &mut body);
        opened.map_err(|cause| StoreFault::NotOpening(place, cause))?;
        if block_of(&body) != u32::from(block) {
            return Err(StoreFault::OtherBlock(place).into());
        }
    }
    Ok((file.last, positions))
}

/// The conditions of 2 and 3 that both makings test.
fn fitting(blocks: u32, places: u32) -> Result<(), StoreFault> {
    if blocks == 0 || blocks > MOST_BLOCKS {
        Err(StoreFault::BlockCount)
    } else if places < 2 * blocks || places > MOST_PLACES {
        Err(StoreFault::PlaceCount)
    } else {
        Ok(())
    }
}

/// The positions that a map file lists.
fn listed(file: &MapFile) -> Result<Positions, Denial> {
    let empty = Positions::empty(file.blocks.into(), file.places.into());
    let mut positions = empty.ok_or(Denial::NoMemory)?;
    let mut former = None;
    for (block, place) in file.entries() {
        if former >= Some(block) || !positions.list(block, place) {
            return Err(StoreFault::MapEntry.into());
        }
        former = Some(block);
    }
    Ok(positions)
}
