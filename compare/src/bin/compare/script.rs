//! A random script and the answers that the model gives to it.

use model::dock::{with_session, Answer, Call, Files, Grant, Options, Session};

use crate::calls::{some_call, some_malformed, some_mood, some_other_blocks, Mood};
use crate::rng::Rng;

/// The file that a script saves last.
const LAST_MAP: &str = "last.bin";

#[derive(Default)]
pub struct Script {
    pub text: String,
    /// The answers that the program must give.
    pub answers: Vec<Answer>,
    /// The number of the malformed line that ends the script.
    pub malformed: Option<usize>,
    /// The file that the last call saved.
    just_saved: Option<String>,
}

/// What the calls of a script are chosen by.
struct Bent {
    mood: Mood,
    /// N, as the round would have it.
    blocks: u32,
}

impl Script {
    /// Begins with the making; leaves `files` as the script leaves them.
    pub fn generate(
        rng: &mut Rng,
        options: &Options,
        files: &mut Files,
        making: Call,
        blocks: u32,
    ) -> Script {
        let mut script = Script::default();
        let bent = Bent { mood: some_mood(rng), blocks };
        with_session(options, files, |session| script.fill(rng, session, making, &bent));
        script
    }

    fn fill(&mut self, rng: &mut Rng, session: &mut Session, making: Call, bent: &Bent) {
        self.add(rng, session, making);
        let calls = rng.within(35..=85) as usize;
        while self.answers.len() < calls {
            let call = match self.just_saved.take() {
                Some(file) if rng.percent(25) => Call::Resume { file },
                _ => next_call(rng, session, bent),
            };
            self.add(rng, session, call);
        }
        if !is_shut(session) && rng.percent(75) {
            self.save_at_the_end(rng, session);
        }
        if rng.percent(2) {
            self.break_off(rng, session, bent);
        }
    }

    /// Beats until nothing waits, or the tape or the counters are spent, and saves.
    fn save_at_the_end(&mut self, rng: &mut Rng, session: &mut Session) {
        for _ in 0..60 {
            let engine = session.store().expect("a making").engine().expect("an open store");
            if engine.waiting() == 0 {
                break;
            }
            self.add(rng, session, Call::Beat { times: None });
            if self.answers.last().is_some_and(|answer| answer.outcome.is_err()) {
                break;
            }
        }
        self.add(rng, session, Call::Save { buffer: None, file: Some(LAST_MAP.into()) });
    }

    /// Adds a malformed line, and calls behind it that are not carried out.
    fn break_off(&mut self, rng: &mut Rng, session: &mut Session, bent: &Bent) {
        self.text += &format!("{}\n", some_malformed(rng));
        self.malformed = Some(self.text.lines().count());
        for _ in 0..rng.below(4) {
            self.text += &format!("{}\n", next_call(rng, session, bent));
        }
    }

    fn add(&mut self, rng: &mut Rng, session: &mut Session, call: Call) {
        if rng.percent(3) {
            self.text += rng.pick(&["\n", "# a remark\n", "#\n", "#beat\n"]);
        }
        self.text += &format!("{call}\n");
        self.answers.extend(session.carry_out(&call));
        if let (Call::Save { file, .. }, Some(_)) = (call, self.saved_last()) {
            self.just_saved = file;
        }
    }

    /// The map file, where saving it was the last call.
    pub fn saved_last(&self) -> Option<Vec<u8>> {
        match &self.answers.last()?.outcome {
            Ok(Grant::Save(map)) => Some(map.clone()),
            _ => None,
        }
    }

    /// The lines that the program must print.
    pub fn expected(&self) -> String {
        self.answers.iter().map(|answer| format!("{answer}\n")).collect()
    }
}

fn is_shut(session: &Session) -> bool {
    session.store().is_some_and(|store| store.engine().is_err())
}

/// A call, or now and then a making; soon where the store is shut.
fn next_call(rng: &mut Rng, session: &mut Session, bent: &Bent) -> Call {
    if rng.percent(if is_shut(session) { 20 } else { 2 }) {
        return making_again(rng, session, bent.blocks);
    }
    some_call(rng, &bent.mood, session.store().expect("a making"))
}

/// Another making on the same ends: the tape goes on where it is.
fn making_again(rng: &mut Rng, session: &mut Session, blocks: u32) -> Call {
    let maps: Vec<&String> = session.files().keys().filter(|name| name.ends_with(".bin")).collect();
    match rng.weighted(&[40, 10, if maps.is_empty() { 0 } else { 50 }]) {
        0 => Call::Format { blocks },
        1 => Call::Format { blocks: some_other_blocks(rng, blocks) },
        _ => Call::Resume { file: maps[rng.below(maps.len())].clone() },
    }
}
