//! The files of a round: card images, keys, tapes and map files, and how they come about.

use model::card::{Card, MOST_RECORDS};
use model::dock::session::with_card;
use model::dock::{CardOption, Files, Options, SealOption, TapeOption};
use model::layout::RECORD_LEN;

use crate::rng::Rng;

pub struct World {
    pub files: Files,
    pub cards: Vec<CardOption>,
    pub seal: SealOption,
    /// N, as the round would have it.
    pub blocks: u32,
    /// The map file that fits the card as it is, where one was saved.
    pub fitting_map: Option<Vec<u8>>,
    /// How many words the next tape has, where it matters.
    pub words: Option<u32>,
    /// The files as they were before each script.
    pub former: Vec<Files>,
}

impl World {
    pub fn new(rng: &mut Rng) -> World {
        let blocks = some_blocks(rng);
        let places = some_places(rng, blocks);
        let mut files = Files::new();
        let cards = some_cards(rng, &mut files, places);
        let seal = some_seal(rng, &mut files, 40);
        World { files, cards, seal, blocks, fitting_map: None, words: None, former: Vec::new() }
    }

    /// P, as the cards count it.
    pub fn places(&mut self) -> u32 {
        with_card(&self.cards, &mut self.files, |card, _| card.count())
    }

    /// The options with a new tape.
    pub fn options(&mut self, rng: &mut Rng) -> Options {
        let count = self.words.take().unwrap_or_else(|| some_words(rng));
        let tape = some_tape(rng, &mut self.files, count);
        Options { cards: self.cards.clone(), seal: self.seal.clone(), tape }
    }
}

fn some_blocks(rng: &mut Rng) -> u32 {
    match rng.weighted(&[50, 35, 9, 3, 3]) {
        0 => rng.within(1..=8),
        1 => rng.within(9..=48),
        2 => rng.within(49..=511),
        3 => 512,
        _ => rng.pick(&[0, 513, 600, 65_535, 65_536, 65_538, u32::MAX]),
    }
}

fn some_places(rng: &mut Rng, blocks: u32) -> u32 {
    let least = blocks.clamp(1, 512) * 2;
    match rng.weighted(&[35, 40, 15, 4, 3, 3]) {
        0 => least,
        1 => (least + rng.within(0..=6)).min(1024),
        2 => (least + rng.within(0..=least)).min(1024),
        3 => least - rng.within(1..=2),
        4 => 1024,
        _ => rng.pick(&[1025, 1026, 1100, 2048]),
    }
}

/// Cards that count so many places, or one fewer where they are split and the number is odd.
fn some_cards(rng: &mut Rng, files: &mut Files, places: u32) -> Vec<CardOption> {
    if rng.percent(60) {
        return vec![some_card(rng, files, "a.card", places, 0)];
    }
    let half = places / 2;
    let longer = rng.within(0..=3) * rng.within(0..=1);
    let (first, second) = if rng.percent(50) { (0, longer) } else { (longer, 0) };
    vec![some_card(rng, files, "a.card", half, first), some_card(rng, files, "b.card", half, second)]
}

/// A card that counts `places + longer` places, sometimes behind a window.
fn some_card(rng: &mut Rng, files: &mut Files, name: &str, places: u32, longer: u32) -> CardOption {
    let count = places + longer;
    let (records, window) = match rng.weighted(&[150, 70, 30, 1]) {
        0 => (count, None),
        1 => {
            let start = rng.within(0..=6);
            (start + count + rng.within(0..=5), Some((start, count)))
        }
        2 => {
            let start = rng.within(0..=6);
            (start + count, Some((start, some_longer_len(rng, count))))
        }
        _ => {
            let start = MOST_RECORDS - count.min(MOST_RECORDS);
            (MOST_RECORDS + rng.within(0..=4), Some((start, some_longer_len(rng, count))))
        }
    };
    let loose = if rng.percent(30) { rng.below(RECORD_LEN) } else { 0 };
    let len = records as usize * RECORD_LEN + loose;
    let image = if rng.percent(40) { vec![0; len] } else { rng.bytes(len) };
    files.insert(name.into(), image);
    CardOption { file: name.into(), window }
}

/// The length of a window whose card ends after `count` places.
fn some_longer_len(rng: &mut Rng, count: u32) -> u32 {
    rng.pick(&[count, count + 1, count + 2, count + 100, 65_536, u32::MAX - 7, u32::MAX])
}

/// A seal; the street seal in so many cases of a hundred, with new keys.
pub fn some_seal(rng: &mut Rng, files: &mut Files, bench: usize) -> SealOption {
    if rng.percent(bench) {
        return SealOption::Bench;
    }
    let file = "street.key".to_string();
    files.insert(file.clone(), rng.bytes(48));
    SealOption::Street { file }
}

fn some_words(rng: &mut Rng) -> u32 {
    match rng.weighted(&[15, 60, 25]) {
        0 => rng.within(0..=12),
        1 => rng.within(20..=90),
        _ => rng.within(91..=400),
    }
}

fn some_tape(rng: &mut Rng, files: &mut Files, count: u32) -> TapeOption {
    let file = "tape".to_string();
    if rng.percent(50) {
        files.insert(file.clone(), rng.bytes(44));
        return TapeOption::Keyed { file, count };
    }
    let mut words = Vec::new();
    let few = rng.percent(30);
    for _ in 0..count {
        let word = match rng.weighted(&[if few { 0 } else { 90 }, if few { 90 } else { 5 }, 5]) {
            0 => rng.word() as u32,
            1 => rng.within(0..=3),
            _ => rng.pick(&[0, 1023, 1024, 65_535, 65_536, i32::MAX as u32, u32::MAX - 1, u32::MAX]),
        };
        words.extend(word.to_le_bytes());
    }
    files.insert(file.clone(), words);
    TapeOption::Words { file }
}
