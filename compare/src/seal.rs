//! Seals turn a body into a record and back.

use crate::cipher::{self, SipKey};
use crate::denial::SealFault;
use crate::layout::{clear_counter, Body, Record, BODY_AT, TAG_AT};

pub trait Seal {
    /// Makes `record` the sealed body for this place and counter.
    fn seal(&self, place: u32, counter: u32, body: &Body, record: &mut Record);

    /// Opens a record into `body` and tells its counter. A denied opening writes nothing.
    fn open(&self, place: u32, record: &Record, body: &mut Body) -> Result<u32, SealFault>;

    /// As [`Seal::seal`], for lengths that are not known to be right.
    fn seal_bytes(&self, place: u32, counter: u32, body: &[u8], record: &mut [u8]) -> Result<(), SealFault> {
        let body = body.try_into().map_err(|_| SealFault::WrongLength)?;
        let record = record.try_into().map_err(|_| SealFault::WrongLength)?;
        self.seal(place, counter, body, record);
        Ok(())
    }

    /// As [`Seal::open`], for lengths that are not known to be right.
    fn open_bytes(&self, place: u32, record: &[u8], body: &mut [u8]) -> Result<u32, SealFault> {
        let record = record.try_into().map_err(|_| SealFault::WrongLength)?;
        let body = body.try_into().map_err(|_| SealFault::WrongLength)?;
        self.open(place, record, body)
    }
}

impl<S: Seal + ?Sized> Seal for Box<S> {
    fn seal(&self, place: u32, counter: u32, body: &Body, record: &mut Record) {
        (**self).seal(place, counter, body, record)
    }

    fn open(&self, place: u32, record: &Record, body: &mut Body) -> Result<u32, SealFault> {
        (**self).open(place, record, body)
    }
}

fn tag_of(record: &Record) -> u64 {
    u64::from_le_bytes(*record.last_chunk().expect("a record is longer than a tag"))
}

/// Leaves the body plain; the tag is the place and the counter. For the workbench only.
#[derive(Clone, Copy, Debug, Default)]
pub struct BenchSeal;

impl BenchSeal {
    fn tag(place: u32, counter: u32) -> u64 {
        u64::from(counter) << 32 | u64::from(place)
    }
}

impl Seal for BenchSeal {
    #[inline]
    fn seal(&self, place: u32, counter: u32, body: &Body, record: &mut Record) {
        record[..BODY_AT].copy_from_slice(&counter.to_le_bytes());
        record[BODY_AT..TAG_AT].copy_from_slice(body);
        record[TAG_AT..].copy_from_slice(&Self::tag(place, counter).to_le_bytes());
    }

    #[inline]
    fn open(&self, place: u32, record: &Record, body: &mut Body) -> Result<u32, SealFault> {
        let counter = clear_counter(record);
        if tag_of(record) != Self::tag(place, counter) {
            return Err(SealFault::WrongTag(place));
        }
        body.copy_from_slice(&record[BODY_AT..TAG_AT]);
        Ok(counter)
    }
}

/// Covers the body with ChaCha20 and tags what is covered with SipHash-2-4.
#[derive(Clone, Debug)]
pub struct StreetSeal {
    bodies: cipher::Key,
    tags: SipKey,
}

impl StreetSeal {
    pub fn new(bodies: &[u8; 32], tags: &[u8; 16]) -> Self {
        StreetSeal { bodies: cipher::words(bodies), tags: SipKey::new(tags) }
    }

    fn tag(&self, place: u32, record: &Record) -> u64 {
        self.tags.hash(&place.to_le_bytes(), &record[..TAG_AT])
    }

    /// Combines `from` with the cover for this place and counter, into `to`.
    #[inline]
    fn cover(&self, place: u32, counter: u32, from: &[u8], to: &mut [u8]) {
        let stream = cipher::chacha20(&self.bodies, 0, &[place, counter, 0]);
        let (from, _) = from.as_chunks::<4>();
        let (to, _) = to.as_chunks_mut::<4>();
        for ((to, from), word) in to.iter_mut().zip(from).zip(stream) {
            *to = (u32::from_le_bytes(*from) ^ word).to_le_bytes();
        }
    }
}

impl Seal for StreetSeal {
    #[inline]
    fn seal(&self, place: u32, counter: u32, body: &Body, record: &mut Record) {
        record[..BODY_AT].copy_from_slice(&counter.to_le_bytes());
        self.cover(place, counter, body, &mut record[BODY_AT..TAG_AT]);
        let tag = self.tag(place, record);
        record[TAG_AT..].copy_from_slice(&tag.to_le_bytes());
    }

    #[inline]
    fn open(&self, place: u32, record: &Record, body: &mut Body) -> Result<u32, SealFault> {
        if tag_of(record) != self.tag(place, record) {
            return Err(SealFault::WrongTag(place));
        }
        let counter = clear_counter(record);
        self.cover(place, counter, &record[BODY_AT..TAG_AT], body);
        Ok(counter)
    }
}
