//! What was asked and answered, counted.

use std::collections::BTreeMap;
use std::fmt::Write;

use model::denial::Denial;
use model::dock::{Answer, Grant};
use model::engine::Deed;

/// Which call can be denied with which number, by the table of denials.
const TABLE: [(&str, &[u8]); 7] = [
    ("format", &[2, 3]),
    ("resume", &[1, 2, 3, 4, 5, 6, 7]),
    ("write", &[8, 9, 12]),
    ("read", &[8, 11]),
    ("beat", &[13, 14]),
    ("save", &[10, 11]),
    ("face", &[11]),
];

#[derive(Clone, Debug, Default)]
pub struct Tally {
    pub runs: u64,
    pub calls: u64,
    granted: BTreeMap<&'static str, u64>,
    denied: BTreeMap<(&'static str, u8), u64>,
    deeds: BTreeMap<&'static str, u64>,
    shut: u64,
}

impl Tally {
    pub fn count_run(&mut self, answers: &[Answer]) {
        self.runs += 1;
        self.calls += answers.len() as u64;
        for answer in answers {
            self.count(answer);
        }
    }

    fn count(&mut self, answer: &Answer) {
        match &answer.outcome {
            Ok(grant) => {
                *self.granted.entry(answer.call).or_default() += 1;
                if let Grant::Beat(beat) = grant {
                    *self.deeds.entry(deed_name(beat.deed)).or_default() += 1;
                }
            }
            Err(_) if answer.shut => self.shut += 1,
            Err(denial) => self.count_denial(answer.call, *denial),
        }
    }

    /// Counts a denial, and the denial that it holds.
    pub fn count_denial(&mut self, call: &'static str, denial: Denial) {
        let cause = denial.cause().map(Denial::Seal);
        if let Some(number) = denial.number() {
            *self.denied.entry((call, number)).or_default() += 1;
        }
        if let Some(number) = cause.and_then(Denial::number) {
            *self.denied.entry(("resume", number)).or_default() += 1;
        }
    }

    pub fn add(&mut self, other: &Tally) {
        self.runs += other.runs;
        self.calls += other.calls;
        self.shut += other.shut;
        add_all(&mut self.granted, &other.granted);
        add_all(&mut self.denied, &other.denied);
        add_all(&mut self.deeds, &other.deeds);
    }

    /// The denials that did not occur, each with its call; 15, 16 and 17 with any.
    pub fn missing(&self) -> Vec<String> {
        let wanted = TABLE.iter().flat_map(|(call, numbers)| numbers.iter().map(move |n| (*call, *n)));
        let mut missing: Vec<String> = wanted
            .filter(|pair| !self.denied.contains_key(pair))
            .map(|(call, number)| format!("{number} from {call}"))
            .collect();
        let unseen = [15, 16, 17].into_iter().filter(|&number| self.total(number) == 0);
        missing.extend(unseen.map(|number| number.to_string()));
        missing
    }

    fn total(&self, number: u8) -> u64 {
        self.denied.iter().filter(|(pair, _)| pair.1 == number).map(|(_, count)| count).sum()
    }

    pub fn report(&self) -> String {
        let mut text = format!("granted:{}\n", listed(&self.granted));
        let _ = writeln!(text, "deeds:{}", listed(&self.deeds));
        for number in 1..=17 {
            let of_calls = self.denied.iter().filter(|(pair, _)| pair.1 == number);
            let by_call: Vec<_> = of_calls.map(|(pair, count)| format!("{} {count}", pair.0)).collect();
            let _ = writeln!(text, "denied {number:2}: {:6}  {}", self.total(number), by_call.join(", "));
        }
        let _ = writeln!(text, "answers of shut stores: {}", self.shut);
        text
    }
}

fn deed_name(deed: Deed) -> &'static str {
    match deed {
        Deed::Dummy => "dummy",
        Deed::Landed(_) => "landed",
        Deed::SealedAgain(_) => "sealed-again",
    }
}

fn add_all<K: Copy + Ord>(sums: &mut BTreeMap<K, u64>, more: &BTreeMap<K, u64>) {
    for (key, count) in more {
        *sums.entry(*key).or_default() += count;
    }
}

fn listed(counts: &BTreeMap<&str, u64>) -> String {
    counts.iter().map(|(name, count)| format!(" {name} {count}")).collect()
}
