//! Cards and map files made by hand, with counters and contents that no short run gives.

use model::card::Card;
use model::dock::session::{open_seal, with_card};
use model::layout::{self, DUMMY, RECORD_LEN};
use model::mapfile;
use model::seal::Seal;

use crate::rng::Rng;
use crate::world::World;

/// How many beats are left at most where the last counter is high; often the tape ends with them.
const MOST_LAST_BEATS: u32 = 30;

/// Fills the card with records under random counters and gives the map file that fits it.
/// Where N and P allow no store, the file says so too.
pub fn hand_made(rng: &mut Rng, world: &mut World) -> Vec<u8> {
    let last = some_last(rng);
    let beats = u32::MAX - last;
    if beats <= MOST_LAST_BEATS && rng.percent(30) {
        world.words = Some(beats);
    }
    let blocks = world.blocks.min(65_535);
    let places = world.places().min(65_535);
    let entries = some_entries(rng, blocks.min(512), places.min(1024));
    let seal = open_seal(&world.seal, &world.files);
    with_card(&world.cards, &mut world.files, |mut card, _| {
        for place in 0..places {
            let counter = some_counter(rng, last);
            let record = card.view_mut(place).expect("a place below the count");
            match entries.iter().find(|entry| u32::from(entry.1) == place) {
                Some(entry) => seal.seal(place, counter, &some_body(rng, u32::from(entry.0)), record),
                None => vacant(rng, &*seal, place, counter, record),
            }
        }
    });
    let mut map = vec![0; mapfile::length(entries.len())];
    let head = (blocks as u16, places as u16, entries.len(), last);
    mapfile::write(head, entries.into_iter(), &mut map).expect("the buffer fits");
    map
}

fn some_last(rng: &mut Rng) -> u32 {
    match rng.weighted(&[40, 20, 20, 20]) {
        0 => u32::MAX - rng.within(0..=MOST_LAST_BEATS),
        1 => rng.within(0..=50),
        2 => rng.pick(&[0, 255, 256, 65_535, 65_536, i32::MAX as u32, 1 << 31]),
        _ => rng.word() as u32,
    }
}

/// A counter up to the last.
pub fn some_counter(rng: &mut Rng, last: u32) -> u32 {
    match rng.below(4) {
        0 => last,
        1 => last - rng.within(0..=last.min(30)),
        _ => rng.within(0..=last),
    }
}

/// Rising blocks at places of their own.
fn some_entries(rng: &mut Rng, blocks: u32, places: u32) -> Vec<(u16, u16)> {
    let share = rng.pick(&[0, 10, 50, 90, 100]);
    let mut vacant: Vec<u16> = (0..places as u16).collect();
    let mut entries = Vec::new();
    for block in 0..blocks as u16 {
        if rng.percent(share) && !vacant.is_empty() {
            let place = vacant.swap_remove(rng.below(vacant.len()));
            entries.push((block, place));
        }
    }
    entries
}

pub fn some_body(rng: &mut Rng, block: u32) -> layout::Body {
    let value = rng.bytes(layout::VALUE_LEN);
    layout::body(block, value[..].try_into().expect("48 bytes"))
}

/// What a place holds that no entry lists: a dummy, some block, or no sealed record at all.
fn vacant(rng: &mut Rng, seal: &dyn Seal, place: u32, counter: u32, record: &mut layout::Record) {
    match rng.below(4) {
        0 | 1 => seal.seal(place, counter, &DUMMY, record),
        2 => {
            let block = rng.within(0..=20);
            seal.seal(place, counter, &some_body(rng, block), record)
        }
        _ => {
            record.copy_from_slice(&rng.bytes(RECORD_LEN));
            record[..4].copy_from_slice(&counter.to_le_bytes());
        }
    }
}
