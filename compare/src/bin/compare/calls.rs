//! Random calls, chosen with an eye on the store's state.

use model::dock::session::AnyStore;
use model::dock::Call;
use model::engine::MOST_WAITING;
use model::layout::VALUE_LEN;
use model::mapfile;

use crate::rng::Rng;

/// What a script does most: the weights of write, read, beat, face, save and of calls that are wrong.
pub type Mood = [usize; 6];

pub fn some_mood(rng: &mut Rng) -> Mood {
    match rng.weighted(&[45, 25, 20, 10]) {
        0 => [24, 20, 36, 4, 8, 8],
        1 => [60, 12, 10, 2, 4, 12],
        2 => [12, 12, 60, 4, 10, 2],
        _ => [10, 20, 20, 10, 15, 25],
    }
}

/// A number of blocks for a format, often one that is denied.
pub fn some_other_blocks(rng: &mut Rng, blocks: u32) -> u32 {
    let more = blocks.saturating_add(1);
    rng.pick(&[0, 1, 2, 512, 513, more, blocks.saturating_mul(2), 65_536, 65_537, u32::MAX])
}

/// A line that is no call.
pub fn some_malformed(rng: &mut Rng) -> &'static str {
    rng.pick(&[
        "frob",
        "format",
        "format two",
        "format 2 2",
        "resume",
        "write",
        "write 0",
        "write 0 4",
        "write 0 4g",
        "write x 41",
        "write 0 41 41",
        "read",
        "read x",
        "read 4294967296",
        "read 0 48 48",
        "beat x",
        "beat 1 1",
        "face x",
        "save 20 map.bin map.bin",
    ])
}

/// What a call may go by.
#[derive(Clone, Copy)]
struct State {
    blocks: u32,
    places: u32,
    landed: usize,
    full: bool,
}

impl State {
    fn of(store: &AnyStore) -> State {
        match store.engine() {
            Ok(engine) => State {
                blocks: engine.blocks(),
                places: engine.places(),
                landed: engine.landed(),
                full: engine.waiting() == MOST_WAITING,
            },
            Err(_) => State { blocks: 4, places: 8, landed: 0, full: false },
        }
    }
}

pub fn some_call(rng: &mut Rng, mood: &Mood, store: &AnyStore) -> Call {
    let state = State::of(store);
    match rng.weighted(mood) {
        0 => Call::Write { block: some_block(rng, state), value: some_value(rng) },
        1 => Call::Read { block: some_block(rng, state), buffer: some_buffer(rng, VALUE_LEN) },
        2 if state.full && rng.percent(50) => {
            Call::Write { block: some_block(rng, state), value: some_value(rng) }
        }
        2 => Call::Beat { times: some_times(rng) },
        3 => Call::Face { buffer: some_buffer(rng, state.places as usize) },
        4 => Call::Save { buffer: some_save_buffer(rng, state), file: some_file(rng) },
        _ => wrong_call(rng, state),
    }
}

fn some_block(rng: &mut Rng, state: State) -> u32 {
    match rng.below(4) {
        0 => rng.within(0..=state.blocks.min(3) - 1),
        1 if rng.percent(20) => state.blocks - 1,
        _ => rng.within(0..=state.blocks - 1),
    }
}

fn some_value(rng: &mut Rng) -> Vec<u8> {
    let len = match rng.below(4) {
        0 => VALUE_LEN,
        1 => rng.pick(&[0, 1, 2, 47]),
        _ => rng.below(VALUE_LEN + 1),
    };
    match rng.below(8) {
        0 => vec![0; len],
        1 => vec![0xff; len],
        _ => rng.bytes(len),
    }
}

/// No length, or now and then the right one.
fn some_buffer(rng: &mut Rng, right: usize) -> Option<usize> {
    rng.percent(15).then_some(right)
}

fn some_times(rng: &mut Rng) -> Option<u32> {
    match rng.weighted(&[140, 20, 40, 1]) {
        0 => None,
        1 => Some(1),
        2 => Some(rng.within(2..=6)),
        _ => Some(rng.within(50..=200)),
    }
}

fn some_save_buffer(rng: &mut Rng, state: State) -> Option<usize> {
    let right = mapfile::length(state.landed);
    match rng.below(4) {
        0 => None,
        1 => Some(right),
        2 => Some(right + rng.pick(&[1, 2, 4, 100])),
        _ => Some(2058),
    }
}

fn some_file(rng: &mut Rng) -> Option<String> {
    rng.percent(50).then(|| format!("map{}.bin", rng.below(3)))
}

/// A call with a block, a value or a buffer that is wrong.
fn wrong_call(rng: &mut Rng, state: State) -> Call {
    let wrong_block = rng.percent(35);
    let block = if wrong_block {
        let near = state.blocks + rng.within(0..=2);
        rng.pick(&[state.blocks, near, 511, 512, 65_535, 65_536, 65_536 + near, 1 << 31, u32::MAX])
    } else {
        some_block(rng, state)
    };
    match rng.below(4) {
        0 => Call::Write { block, value: wrong_value(rng, wrong_block) },
        1 => Call::Read { block, buffer: wrong_buffer(rng, VALUE_LEN, wrong_block) },
        2 => Call::Face { buffer: wrong_buffer(rng, state.places as usize, false) },
        _ => Call::Save { buffer: wrong_save_buffer(rng, state), file: some_file(rng) },
    }
}

/// A value that is too long, or some value where something else is wrong already.
fn wrong_value(rng: &mut Rng, else_wrong: bool) -> Vec<u8> {
    if else_wrong && rng.percent(50) {
        return some_value(rng);
    }
    let len = rng.pick(&[49, 49, 50, 52, 64, 96, 255, 256, 304, 1000]);
    rng.bytes(len)
}

fn wrong_buffer(rng: &mut Rng, right: usize, else_wrong: bool) -> Option<usize> {
    if else_wrong && rng.percent(50) {
        return None;
    }
    let near = right + rng.below(5);
    Some(rng.pick(&[0, 1, right.saturating_sub(1), right + 1, near, 52, 64, 2 * right, right + 65_536]))
}

fn wrong_save_buffer(rng: &mut Rng, state: State) -> Option<usize> {
    let right = mapfile::length(state.landed);
    let short = rng.below(right);
    Some(rng.pick(&[0, 9, right - 1, right - 2, right - 4, short]))
}
