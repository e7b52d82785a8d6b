//! The map file: what a store saves so that it can be resumed.

use crate::denial::StoreFault;

/// The bytes in front of the entries.
pub const HEAD_LEN: usize = 10;

/// The length of a map file with so many landed blocks.
pub const fn length(landed: usize) -> usize {
    HEAD_LEN + 4 * landed
}

/// A map file whose length is right.
#[derive(Clone, Copy, Debug)]
pub struct MapFile<'a> {
    pub blocks: u16,
    pub places: u16,
    pub last: u32,
    landed: &'a [[u8; 2]],
    at: &'a [[u8; 2]],
}

impl<'a> MapFile<'a> {
    /// Denied with 1 where the length is wrong.
    pub fn parse(bytes: &'a [u8]) -> Result<Self, StoreFault> {
        let (head, entries) = bytes.split_first_chunk::<HEAD_LEN>().ok_or(StoreFault::MapLength)?;
        let short = |at: usize| u16::from_le_bytes([head[at], head[at + 1]]);
        let landed = usize::from(short(4));
        if entries.len() != 4 * landed {
            return Err(StoreFault::MapLength);
        }
        let (shorts, _) = entries.as_chunks::<2>();
        Ok(MapFile {
            blocks: short(0),
            places: short(2),
            last: u32::from_le_bytes([head[6], head[7], head[8], head[9]]),
            landed: &shorts[..landed],
            at: &shorts[landed..],
        })
    }

    /// The landed blocks and their places, in file order.
    pub fn entries(self) -> impl Iterator<Item = (u16, u16)> + 'a {
        let blocks = self.landed.iter().map(|bytes| u16::from_le_bytes(*bytes));
        blocks.zip(self.at.iter().map(|bytes| u16::from_le_bytes(*bytes)))
    }
}

/// Writes a map file to the front of `buffer` and tells its length, or nothing where the buffer is too short.
/// `entries` are `landed` many, with rising blocks.
pub fn write(
    (blocks, places, landed, last): (u16, u16, usize, u32),
    entries: impl Iterator<Item = (u16, u16)>,
    buffer: &mut [u8],
) -> Option<usize> {
    let file = buffer.get_mut(..length(landed))?;
    let (head, rest) = file.split_at_mut(HEAD_LEN);
    head[0..2].copy_from_slice(&blocks.to_le_bytes());
    head[2..4].copy_from_slice(&places.to_le_bytes());
    head[4..6].copy_from_slice(&(landed as u16).to_le_bytes());
    head[6..10].copy_from_slice(&last.to_le_bytes());
    let (shorts, _) = rest.as_chunks_mut::<2>();
    let (block_bytes, place_bytes) = shorts.split_at_mut(landed);
    for ((block, place), (b, p)) in entries.zip(block_bytes.iter_mut().zip(place_bytes)) {
        *b = block.to_le_bytes();
        *p = place.to_le_bytes();
    }
    Some(length(landed))
}
