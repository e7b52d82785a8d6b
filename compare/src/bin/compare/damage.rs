//! Damage to map files, cards and options, between a save and a resume.

use model::card::Card;
use model::dock::session::{open_seal, with_card};
use model::dock::SealOption;
use model::layout::{clear_counter, DUMMY, RECORD_LEN};
use model::mapfile::{MapFile, HEAD_LEN};
use model::seal::Seal;

use crate::prepare::{some_body, some_counter};
use crate::rng::Rng;
use crate::world::{some_seal, World};

/// Damages the map file, the card or the options.
pub fn some_damage(rng: &mut Rng, world: &mut World, map: &mut Vec<u8>) {
    match rng.weighted(&[40, 48, 12]) {
        0 => damage_map(rng, map),
        1 => damage_card(rng, world, map),
        _ => damage_options(rng, world),
    }
}

fn short(map: &[u8], at: usize) -> u16 {
    u16::from_le_bytes([map[at], map[at + 1]])
}

fn set_short(map: &mut [u8], at: usize, number: u16) {
    map[at..at + 2].copy_from_slice(&number.to_le_bytes());
}

fn damage_map(rng: &mut Rng, map: &mut Vec<u8>) {
    if map.len() < HEAD_LEN || rng.percent(25) {
        return damage_bytes(rng, map);
    }
    match rng.weighted(&[2, 2, 1, 3, 7]) {
        0 => damage_number(rng, map, 0, &[0, 1, 512, 513, 600, 65_535]),
        1 => damage_number(rng, map, 2, &[0, 1, 1024, 1025, 65_535]),
        2 => damage_number(rng, map, 4, &[0, 1, 65_535]),
        3 => damage_last(rng, map),
        _ => damage_entries(rng, map),
    }
}

fn damage_bytes(rng: &mut Rng, map: &mut Vec<u8>) {
    match rng.below(4) {
        0 => map.truncate(rng.below(map.len() + 1)),
        1 => map.truncate(map.len().saturating_sub(rng.pick(&[1, 2, 3, 4]))),
        2 => {
            let len = rng.pick(&[1, 2, 3, 4, 8, 300]);
            map.extend(rng.bytes(len));
        }
        _ => rng.flip_bit(map),
    }
}

/// Makes a number of the head one more, one less, or an odd one.
fn damage_number(rng: &mut Rng, map: &mut [u8], at: usize, odd: &[u16]) {
    let number = short(map, at);
    let other = match rng.below(3) {
        0 => number.wrapping_add(1),
        1 => number.wrapping_sub(1),
        _ => rng.pick(odd),
    };
    set_short(map, at, other);
}

fn damage_last(rng: &mut Rng, map: &mut [u8]) {
    let last = u32::from_le_bytes([map[6], map[7], map[8], map[9]]);
    let other = match rng.below(4) {
        0 => last.wrapping_sub(1),
        1 => last.wrapping_add(1),
        2 => last.saturating_sub(rng.within(1..=9)),
        _ => rng.pick(&[0, u32::MAX, u32::MAX - 1]),
    };
    map[6..10].copy_from_slice(&other.to_le_bytes());
}

/// Alters the listed blocks or places; the length stays right.
fn damage_entries(rng: &mut Rng, map: &mut Vec<u8>) {
    let landed = usize::from(short(map, 4));
    if landed == 0 || map.len() != HEAD_LEN + 4 * landed {
        return add_entry(rng, map);
    }
    let blocks = HEAD_LEN;
    let places = HEAD_LEN + 2 * landed;
    let one = rng.below(landed);
    let other = if rng.percent(50) { (one + 1) % landed } else { rng.below(landed) };
    let (i, j) = (2 * one, 2 * other);
    let (n, p) = (short(map, 0), short(map, 2));
    match rng.below(8) {
        0 => swap(map, blocks + i, blocks + j),
        1 => swap(map, places + i, places + j),
        2 => copy(map, blocks + i, blocks + j),
        3 => copy(map, places + i, places + j),
        4 => set_short(map, blocks + i, rng.pick(&[n, n.wrapping_add(1), 65_535, 0])),
        5 => set_short(map, places + i, rng.pick(&[p, p.wrapping_add(1), 65_535, 0])),
        6 => set_short(map, places + i, rng.within(0..=u32::from(p.max(1)) - 1) as u16),
        _ => remove_entry(rng, map, landed),
    }
}

fn swap(map: &mut [u8], a: usize, b: usize) {
    let (first, second) = (short(map, a), short(map, b));
    set_short(map, a, second);
    set_short(map, b, first);
}

fn copy(map: &mut [u8], from: usize, to: usize) {
    let number = short(map, from);
    set_short(map, to, number);
}

fn remove_entry(rng: &mut Rng, map: &mut Vec<u8>, landed: usize) {
    let i = 2 * rng.below(landed);
    map.drain(HEAD_LEN + 2 * landed + i..HEAD_LEN + 2 * landed + i + 2);
    map.drain(HEAD_LEN + i..HEAD_LEN + i + 2);
    set_short(map, 4, landed as u16 - 1);
}

/// Lists one block more, at some place, behind the others.
fn add_entry(rng: &mut Rng, map: &mut Vec<u8>) {
    let landed = usize::from(short(map, 4));
    if map.len() != HEAD_LEN + 4 * landed {
        return damage_bytes(rng, map);
    }
    let block = rng.within(0..=u32::from(short(map, 0))) as u16;
    let place = rng.within(0..=u32::from(short(map, 2))) as u16;
    let middle = HEAD_LEN + 2 * landed;
    map.splice(middle..middle, block.to_le_bytes());
    map.extend(place.to_le_bytes());
    set_short(map, 4, landed as u16 + 1);
}

fn damage_card(rng: &mut Rng, world: &mut World, map: &[u8]) {
    match rng.weighted(&[80, 12, 8]) {
        0 => damage_record(rng, world, map),
        1 => put_former_card(rng, world),
        _ => damage_length(rng, world),
    }
}

/// Puts back a card as it was before some script.
fn put_former_card(rng: &mut Rng, world: &mut World) {
    if world.former.is_empty() {
        return;
    }
    let former = &world.former[rng.below(world.former.len())];
    for card in &world.cards {
        if rng.percent(80) {
            world.files.insert(card.file.clone(), former[&card.file].clone());
        }
    }
}

fn damage_length(rng: &mut Rng, world: &mut World) {
    let card = rng.below(world.cards.len());
    let image = world.files.get_mut(&world.cards[card].file).expect("a card file");
    if rng.percent(50) {
        let less = rng.pick(&[1, RECORD_LEN, 2 * RECORD_LEN, 300]);
        image.truncate(image.len().saturating_sub(less));
    } else {
        let more = rng.pick(&[1, RECORD_LEN, 2 * RECORD_LEN, 300]);
        image.extend(rng.bytes(more));
    }
}

/// A place of the card, a listed one in most cases, and its block.
fn some_place(rng: &mut Rng, map: &[u8], count: u32) -> (u32, u32) {
    let entries: Vec<_> = MapFile::parse(map).map_or(Vec::new(), |file| file.entries().collect());
    if !entries.is_empty() && rng.percent(80) {
        let (block, place) = rng.pick(&entries);
        return (u32::from(place) % count, u32::from(block));
    }
    (rng.within(0..=count - 1), rng.within(0..=20))
}

fn damage_record(rng: &mut Rng, world: &mut World, map: &[u8]) {
    let seal = open_seal(&world.seal, &world.files);
    with_card(&world.cards, &mut world.files, |mut card, _| {
        if card.count() == 0 {
            return;
        }
        let (place, block) = some_place(rng, map, card.count());
        let (other, _) = some_place(rng, map, card.count());
        let former = *card.view(other).expect("a place below the count");
        let record = card.view_mut(place).expect("a place below the count");
        let counter = clear_counter(record);
        match rng.weighted(&[8, 20, 16, 15, 13, 10, 6, 12]) {
            0 => rng.flip_bit(&mut record[..4]),
            1 => rng.flip_bit(record),
            2 => rng.flip_bit(&mut record[56..]),
            3 => *record = former,
            4 => {
                let else_block = rng.pick(&[block + 65_536, block ^ 1, block + 1, 0, u32::MAX - 1]);
                seal.seal(place, counter, &some_body(rng, else_block), record)
            }
            5 => seal.seal(place, counter, &DUMMY, record),
            6 => {
                let above = rng.pick(&[u32::MAX, 1 << 31, counter.wrapping_add(100)]);
                record[..4].copy_from_slice(&above.to_le_bytes())
            }
            _ => {
                let counter = some_counter(rng, counter);
                seal.seal(place, counter, &some_body(rng, block), record)
            }
        }
    })
}

/// Another seal, other windows, or the cards in the other order.
fn damage_options(rng: &mut Rng, world: &mut World) {
    match rng.below(3) {
        0 => world.seal = some_seal(rng, &mut world.files, 30),
        1 => {
            let card = rng.below(world.cards.len());
            let window = &mut world.cards[card].window;
            *window = match *window {
                Some((start, len)) if rng.percent(60) => {
                    Some((start + rng.within(0..=1), len.saturating_sub(rng.within(0..=2))))
                }
                Some(_) => None,
                None => Some((rng.pick(&[0, 1, 65_536, u32::MAX]), rng.pick(&[0, 8, 1024, u32::MAX]))),
            }
        }
        _ => {
            if let (true, SealOption::Street { file }) = (world.cards.len() == 1, &world.seal) {
                rng.flip_bit(world.files.get_mut(file).expect("a key file"));
            }
            world.cards.reverse()
        }
    }
}
