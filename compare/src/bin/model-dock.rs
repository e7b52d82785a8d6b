//! The program `dock` by the model: the same options, the same script on standard input, the same answers.

use std::error::Error;
use std::io::Read;
use std::{fs, io};

use model::dock::{with_session, Call, Files, Options, SealOption, Session, TapeOption};

fn main() -> Result<(), Box<dyn Error>> {
    let options =
        Options::parse(std::env::args().skip(1)).ok_or("malformed options; see docs/PROGRAMS.md")?;
    let mut script = String::new();
    io::stdin().read_to_string(&mut script)?;
    let mut files = Files::new();
    for file in named_files(&options) {
        files.insert(file.clone(), fs::read(file)?);
    }
    let outcome = with_session(&options, &mut files, |session| carry_out(session, &script));
    for card in &options.cards {
        fs::write(&card.file, &files[&card.file])?;
    }
    outcome
}

fn named_files(options: &Options) -> Vec<&String> {
    let mut named: Vec<_> = options.cards.iter().map(|card| &card.file).collect();
    if let SealOption::Street { file } = &options.seal {
        named.push(file);
    }
    match &options.tape {
        TapeOption::Words { file } | TapeOption::Keyed { file, .. } => named.push(file),
    }
    named
}

fn carry_out(session: &mut Session, script: &str) -> Result<(), Box<dyn Error>> {
    for (number, line) in (1..).zip(script.lines()) {
        if line.trim().is_empty() || line.starts_with('#') {
            continue;
        }
        let call = Call::parse(line).ok_or_else(|| format!("line {number}: malformed"))?;
        if let Call::Resume { file } = &call {
            session.files().insert(file.clone(), fs::read(file)?);
        }
        for answer in session.carry_out(&call) {
            println!("{answer}");
        }
        if let Call::Save { file: Some(file), .. } = &call {
            if let Some(map) = session.files().get(file) {
                fs::write(file, map)?;
            }
        }
    }
    Ok(())
}
