//! Carries out calls on files that are held in memory.

use super::{Answer, Call, CardOption, Files, Grant, Options, SealOption, TapeOption};
use crate::card::{ByteCard, Card, SplitCard, WindowCard};
use crate::denial::Denial;
use crate::layout::VALUE_LEN;
use crate::seal::{BenchSeal, Seal, StreetSeal};
use crate::store::Store;
use crate::tape::{KeyedTape, Tape, WordTape};

pub type AnyCard<'a> = Box<dyn Card + 'a>;
pub type AnySeal = Box<dyn Seal>;
type AnyTape<'a> = Box<dyn Tape + 'a>;
pub type AnyStore<'a> = Store<AnyCard<'a>, AnySeal, AnyTape<'a>>;

/// A script under way.
pub struct Session<'a> {
    files: &'a mut Files,
    ends: Option<(AnyCard<'a>, AnySeal, AnyTape<'a>)>,
    store: Option<AnyStore<'a>>,
}

/// Opens the ends that `options` name, lets `work` carry out calls, and writes the cards back.
///
/// # Panics
/// If a file is missing or a key file has the wrong length.
pub fn with_session<R>(options: &Options, files: &mut Files, work: impl FnOnce(&mut Session) -> R) -> R {
    let seal = open_seal(&options.seal, files);
    let words = words(&options.tape, files);
    let tape = tape(&options.tape, files, &words);
    with_card(&options.cards, files, |card, files| {
        work(&mut Session { files, ends: Some((card, seal, tape)), store: None })
    })
}

/// Opens the card, lets `work` use it beside the other files, and writes it back.
///
/// # Panics
/// If a file is missing.
pub fn with_card<R>(
    cards: &[CardOption],
    files: &mut Files,
    work: impl for<'a> FnOnce(AnyCard<'a>, &'a mut Files) -> R,
) -> R {
    let mut images: Vec<Vec<u8>> =
        cards.iter().map(|card| files.remove(&card.file).expect("a card file")).collect();
    let result = work(open_card(cards, &mut images), files);
    for (option, image) in cards.iter().zip(images) {
        files.insert(option.file.clone(), image);
    }
    result
}

fn open_card<'a>(options: &[CardOption], images: &'a mut [Vec<u8>]) -> AnyCard<'a> {
    let mut cards = options.iter().zip(images).map(|(option, image)| match option.window {
        None => Box::new(ByteCard::new(image)) as AnyCard,
        Some((start, len)) => Box::new(WindowCard::new(ByteCard::new(image), start, len)),
    });
    let first = cards.next().expect("a card");
    match cards.next() {
        None => first,
        Some(second) => Box::new(SplitCard::new(first, second)),
    }
}

/// The seal that the option names.
///
/// # Panics
/// If the key file is missing or has the wrong length.
pub fn open_seal(option: &SealOption, files: &Files) -> AnySeal {
    match option {
        SealOption::Bench => Box::new(BenchSeal),
        SealOption::Street { file } => {
            let (bodies, tags) = files[file].split_first_chunk().expect("48 bytes");
            Box::new(StreetSeal::new(bodies, tags.try_into().expect("48 bytes")))
        }
    }
}

fn words(option: &TapeOption, files: &Files) -> Vec<u32> {
    match option {
        TapeOption::Words { file } => {
            let (words, _) = files[file].as_chunks();
            words.iter().map(|word| u32::from_le_bytes(*word)).collect()
        }
        TapeOption::Keyed { .. } => Vec::new(),
    }
}

fn tape<'a>(option: &TapeOption, files: &Files, words: &'a [u32]) -> AnyTape<'a> {
    match option {
        TapeOption::Words { .. } => Box::new(WordTape::new(words)),
        TapeOption::Keyed { file, count } => {
            let (key, nonce) = files[file].split_first_chunk().expect("44 bytes");
            Box::new(KeyedTape::new(key, nonce.try_into().expect("44 bytes"), *count))
        }
    }
}

impl<'a> Session<'a> {
    /// The store, where a making came before.
    pub fn store(&self) -> Option<&AnyStore<'a>> {
        self.store.as_ref()
    }

    pub fn files(&mut self) -> &mut Files {
        self.files
    }

    /// Carries out a call and gives its answers.
    ///
    /// # Panics
    /// If no making came before, or a file is missing.
    pub fn carry_out(&mut self, call: &Call) -> Vec<Answer> {
        let times = match call {
            Call::Beat { times } => times.unwrap_or(1),
            _ => 1,
        };
        (0..times).map(|_| self.answer(call)).collect()
    }

    fn answer(&mut self, call: &Call) -> Answer {
        if let Call::Format { .. } | Call::Resume { .. } = call {
            return self.make(call);
        }
        let shut = matches!(self.store, Some(Store::Shut(..)));
        Answer { call: call.name(), shut, outcome: self.outcome(call) }
    }

    fn make(&mut self, making: &Call) -> Answer {
        let former = self.store.take().map(Store::into_ends);
        let (card, seal, tape) = former.or_else(|| self.ends.take()).expect("ends");
        let store = match making {
            Call::Format { blocks } => Store::format(*blocks, card, seal, tape),
            Call::Resume { file } => Store::resume(&self.files[file], card, seal, tape),
            _ => unreachable!("no making"),
        };
        let outcome = store.engine().map(|_| Grant::Plain);
        self.store = Some(store);
        Answer { call: making.name(), shut: false, outcome }
    }

    fn outcome(&mut self, call: &Call) -> Result<Grant, Denial> {
        let store = self.store.as_mut().expect("a making");
        match call {
            Call::Write { block, value } => store.write(*block, value).map(|()| Grant::Plain),
            Call::Read { block, buffer } => read(store, *block, buffer.unwrap_or(VALUE_LEN)),
            Call::Beat { .. } => store.beat().map(Grant::Beat),
            Call::Face { buffer } => face(store, *buffer),
            Call::Save { buffer, file } => {
                let map = save(store, *buffer)?;
                if let Some(file) = file {
                    self.files.insert(file.clone(), map.clone());
                }
                Ok(Grant::Save(map))
            }
            Call::Format { .. } | Call::Resume { .. } => unreachable!("a making"),
        }
    }
}

fn read(store: &AnyStore, block: u32, len: usize) -> Result<Grant, Denial> {
    let mut buffer = vec![0; len];
    store.read(block, &mut buffer)?;
    Ok(Grant::Read(Box::new(buffer.try_into().expect("a granted read fills 48 bytes"))))
}

fn face(store: &AnyStore, len: Option<usize>) -> Result<Grant, Denial> {
    let places = store.engine()?.places() as usize;
    let mut buffer = vec![0; len.unwrap_or(places)];
    store.face(&mut buffer)?;
    Ok(Grant::Face(buffer))
}

fn save(store: &AnyStore, len: Option<usize>) -> Result<Vec<u8>, Denial> {
    let landed = store.engine()?.landed();
    let mut buffer = vec![0; len.unwrap_or(crate::mapfile::length(landed))];
    let length = store.save(&mut buffer)?;
    buffer.truncate(length);
    Ok(buffer)
}
