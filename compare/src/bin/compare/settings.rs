//! The command line of the comparison.

use std::path::PathBuf;
use std::time::{SystemTime, UNIX_EPOCH};

use crate::Outcome;

pub struct Settings {
    pub seed: u64,
    /// How many scripts.
    pub runs: usize,
    pub threads: usize,
    /// The program `dock`.
    pub program: PathBuf,
    /// The program `ends`, where it is to be compared too.
    pub ends: Option<PathBuf>,
    /// The program `vectors`, where it is to be compared too.
    pub vectors: Option<PathBuf>,
    /// Where a failure is saved.
    pub failure: PathBuf,
    /// The folder of a program, where the first script of the one round is only to be written for the gate.
    pub write: Option<PathBuf>,
    /// The one round to run.
    pub round: Option<u64>,
}

impl Settings {
    pub fn parse(arguments: impl Iterator<Item = String>) -> Outcome<Settings> {
        let mut settings = Settings {
            seed: seed_of_the_clock(),
            runs: 10_000,
            threads: 2,
            program: "crates/dock/out/dock".into(),
            ends: None,
            vectors: None,
            failure: "target/compare-failure".into(),
            write: None,
            round: None,
        };
        let mut words = arguments;
        while let Some(word) = words.next() {
            let value = words.next().ok_or_else(|| format!("{word} wants a value"))?;
            match word.as_str() {
                "--seed" => settings.seed = value.parse()?,
                "--runs" => settings.runs = value.parse()?,
                "--threads" => settings.threads = value.parse()?,
                "--round" => settings.round = Some(value.parse()?),
                "--write" => settings.write = Some(value.into()),
                "--program" => settings.program = value.into(),
                "--ends" => settings.ends = Some(value.into()),
                "--vectors" => settings.vectors = Some(value.into()),
                "--failure" => settings.failure = value.into(),
                _ => return Err(format!("no such option: {word}").into()),
            }
        }
        settings.program = std::path::absolute(&settings.program)?;
        Ok(settings)
    }
}

fn seed_of_the_clock() -> u64 {
    let since = SystemTime::now().duration_since(UNIX_EPOCH).unwrap_or_default();
    since.as_nanos() as u64 % 1_000_000_000
}
