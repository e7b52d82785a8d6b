//! The task of the program `ends`, carried out with the model: bookings sealed onto a split card, and
//! the denials of the ends that no script can reach.

use std::collections::BTreeMap;
use std::fmt::Write;

use model::card::{ByteCard, Card, SplitCard, WindowCard};
use model::denial::{Denial, TapeFault};
use model::dock::hex;
use model::layout::{self, clear_counter, BODY_LEN, DUMMY, RECORD_LEN};
use model::seal::{Seal, StreetSeal};
use model::tape::{KeyedTape, Tape};

const EVEN_RECORDS: usize = 6;
const ODD_RECORDS: usize = 8;
const BOOKINGS: [(u32, &str); 8] = [
    (3, "K7Q2 Anna Berg, room 14, two nights"),
    (0, "M4XD Jonas Falk, room 3, one night"),
    (11, "T9RW Ida Lund, room 21, four nights"),
    (6, "B2HN Peter Holm, room 8, one night"),
    (1, "Z5CP Marta Ruiz, room 17, three nights"),
    (9, "F8LJ Omar Said, room 5, two nights"),
    (4, "W3GV Lena Vogt, room 12, six nights"),
    (7, "D6SY Paul Weiss, room 2, one night"),
];

/// What the program must print, and the denials in it.
#[derive(Default)]
pub struct Task {
    pub text: String,
    pub denials: Vec<Denial>,
    /// By place: the counter of its last booking.
    listed: BTreeMap<u32, u32>,
}

fn rising<const LEN: usize>(from: u8) -> [u8; LEN] {
    std::array::from_fn(|i| from + i as u8)
}

impl Task {
    pub fn carried_out() -> Task {
        let (mut even, mut odd) = ([0; 64 * EVEN_RECORDS], [0; 64 * ODD_RECORDS]);
        let window = WindowCard::new(ByteCard::new(&mut odd), 1, 6);
        let mut card = SplitCard::new(ByteCard::new(&mut even), window);
        let (bodies, tags) = (rising::<32>(0), rising::<16>(32));
        let (key, nonce) = (rising::<32>(64), rising::<12>(96));
        let seal = StreetSeal::new(&bodies, &tags);
        let mut tape = KeyedTape::new(&key, &nonce, BOOKINGS.len() as u32);
        let mut task = Task::default();
        task.line(format!("keys of the example: body {}", hex(&bodies)));
        task.line(format!("  tag {}", hex(&tags)));
        task.line(format!("  tape {} nonce {}", hex(&key), hex(&nonce)));
        task.line(format!(
            "a card of {} places: a card of {EVEN_RECORDS} and a window on a card of {ODD_RECORDS}, split",
            card.count()
        ));
        task.book(&mut card, &seal, &mut tape);
        task.open(&card, &seal);
        task.try_denials(&card, &seal, &mut tape);
        task
    }

    fn line(&mut self, line: String) {
        self.text += &line;
        self.text.push('\n');
    }

    fn book(&mut self, card: &mut impl Card, seal: &StreetSeal, tape: &mut KeyedTape) {
        for (counter, (block, text)) in (1..).zip(BOOKINGS) {
            let word = tape.draw().expect("a word");
            let place = word % card.count();
            let value = layout::filled(text.as_bytes()).expect("a short text");
            let mut record = [0; RECORD_LEN];
            seal.seal(place, counter, &layout::body(block, &value), &mut record);
            card.put(place, &record).expect("a place of the card");
            self.line(format!("word {word:08x}: place {place} counter {counter}: {text}"));
            self.line(format!("  {}", hex(&record)));
            if let Some(former) = self.listed.insert(place, counter) {
                self.line(format!("  replaces counter {former}"));
            }
        }
    }

    fn open(&mut self, card: &impl Card, seal: &StreetSeal) {
        let mut body = DUMMY;
        for place in self.listed.clone().into_keys() {
            let record = card.view(place).expect("a place of the card");
            let counter = seal.open(place, record, &mut body).expect("a sealed record");
            let text = String::from_utf8_lossy(layout::value_of(&body)).into_owned();
            let (block, text) = (layout::block_of(&body), text.trim_end_matches('\0'));
            self.line(format!("opened place {place}: counter {counter} block {block}: {text}"));
        }
        let mut face = String::from("face");
        for place in 0..card.count() {
            let record = card.view(place).expect("a place of the card");
            let _ = write!(face, " {}", clear_counter(record));
        }
        self.line(face);
    }

    fn try_denials(&mut self, card: &impl Card, seal: &StreetSeal, tape: &mut KeyedTape) {
        let first = *self.listed.keys().next().expect("a booking");
        let record = *card.view(first).expect("a place of the card");
        let mut damaged = record;
        damaged[10] ^= 1;
        let mut body = [0; BODY_LEN];
        self.trial("one bit flipped", seal.open_bytes(first, &damaged, &mut body));
        self.trial("opened at another place", seal.open_bytes(first ^ 1, &record, &mut body));
        self.trial("opened into 51 bytes", seal.open_bytes(first, &record, &mut body[..51]));
        let mut buffer = [0; RECORD_LEN];
        self.trial("read beyond the count", card.get(card.count(), &mut buffer));
        self.trial("read into 63 bytes", card.get(first, &mut buffer[..63]));
        self.trial::<_, TapeFault>("drawn from a spent tape", tape.draw());
        let (opened, denied) = (self.listed.len(), self.denials.len());
        self.line(format!(
            "done: {} sealed, {opened} opened, {opened} compared, {denied} denied",
            BOOKINGS.len()
        ));
    }

    fn trial<T, F: Into<Denial>>(&mut self, name: &str, outcome: Result<T, F>) {
        let Err(fault) = outcome else {
            return self.line(format!("{name}: granted"));
        };
        let denial: Denial = fault.into();
        self.line(format!("{name}: denied {denial}: {}", advice(denial)));
        self.denials.push(denial);
    }
}

fn advice(denial: Denial) -> &'static str {
    match denial.number() {
        Some(13) => "no word is left on the tape; load a new tape",
        Some(15) => "the card has no such place; give a place below its count",
        Some(16) => "a length is wrong; hand in 64 bytes for a record and 52 for a body",
        Some(17) => "this is not what was sealed for this place; take the record from a copy of the card",
        _ => "",
    }
}
