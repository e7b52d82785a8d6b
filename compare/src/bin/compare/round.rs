//! A round: a few scripts, one after the other, over the same cards.

use std::io;

use model::dock::{Call, Files, Options};

use crate::calls::some_other_blocks;
use crate::damage::some_damage;
use crate::prepare::hand_made;
use crate::rng::Rng;
use crate::runner::{Difference, Runner};
use crate::script::Script;
use crate::tally::Tally;
use crate::world::World;

/// The map file that was made or damaged by hand for a resume.
const GIVEN_MAP: &str = "given.bin";

/// The most scripts of a round.
const MOST_SCRIPTS: usize = 4;

/// A script that the program answered other than the model, with its files.
pub struct Failure {
    pub options: Options,
    pub script: Script,
    pub before: Files,
    pub after: Files,
    pub difference: Difference,
}

/// How many scripts the round has for which this is the generator.
pub fn scripts_of_round(rng: &mut Rng) -> usize {
    1 + rng.below(MOST_SCRIPTS)
}

/// Runs so many scripts; stops at the first difference.
pub fn run_round(
    rng: &mut Rng,
    scripts: usize,
    runner: &mut Runner,
    tally: &mut Tally,
) -> io::Result<Option<Failure>> {
    let mut world = World::new(rng);
    for _ in 0..scripts {
        let making = some_making(rng, &mut world);
        let options = world.options(rng);
        let before = world.files.clone();
        let script = Script::generate(rng, &options, &mut world.files, making, world.blocks);
        if let Some(difference) = runner.compare(&options, &script, &before, &world.files)? {
            let after = world.files;
            return Ok(Some(Failure { options, script, before, after, difference }));
        }
        tally.count_run(&script.answers);
        world.fitting_map = script.saved_last();
        world.former.push(before);
    }
    Ok(None)
}

/// The first script of a round, with what it is run on.
pub struct First {
    pub options: Options,
    pub script: Script,
    pub before: Files,
}

/// Makes the first script of a round, and runs nothing.
pub fn first_of_round(rng: &mut Rng) -> First {
    let mut world = World::new(rng);
    let making = some_making(rng, &mut world);
    let options = world.options(rng);
    let before = world.files.clone();
    let script = Script::generate(rng, &options, &mut world.files, making, world.blocks);
    First { options, script, before }
}

fn some_making(rng: &mut Rng, world: &mut World) -> Call {
    let saved: Vec<&Vec<u8>> =
        world.files.iter().filter(|(name, _)| name.ends_with(".bin")).map(|(_, map)| map).collect();
    let fitting = if world.fitting_map.is_some() { 80 } else { 0 };
    let any = if saved.is_empty() { 0 } else { 10 };
    match rng.weighted(&[16, 10, 3, fitting, any]) {
        0 => Call::Format { blocks: world.blocks },
        1 => {
            let map = hand_made(rng, world);
            resume_from(rng, world, map, 45)
        }
        2 => Call::Format { blocks: some_other_blocks(rng, world.blocks) },
        3 => {
            let map = world.fitting_map.take().expect("a map file");
            resume_from(rng, world, map, 60)
        }
        _ => {
            let map = saved[rng.below(saved.len())].clone();
            resume_from(rng, world, map, 30)
        }
    }
}

/// A resume from this map file, damaged in so many cases of a hundred.
fn resume_from(rng: &mut Rng, world: &mut World, mut map: Vec<u8>, damaged: usize) -> Call {
    if rng.percent(damaged) {
        some_damage(rng, world, &mut map);
        if rng.percent(20) {
            some_damage(rng, world, &mut map);
        }
    }
    world.files.insert(GIVEN_MAP.into(), map);
    Call::Resume { file: GIVEN_MAP.into() }
}
