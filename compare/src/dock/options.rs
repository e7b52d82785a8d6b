//! The options: on which cards, under which seal and off which tape the script runs.

#[derive(Clone, Debug, PartialEq, Eq)]
pub struct CardOption {
    pub file: String,
    /// The first place and the number of places.
    pub window: Option<(u32, u32)>,
}

#[derive(Clone, Debug, PartialEq, Eq)]
pub enum SealOption {
    Bench,
    Street { file: String },
}

#[derive(Clone, Debug, PartialEq, Eq)]
pub enum TapeOption {
    Words { file: String },
    Keyed { file: String, count: u32 },
}

#[derive(Clone, Debug, PartialEq, Eq)]
pub struct Options {
    /// One card, or two: even and odd places.
    pub cards: Vec<CardOption>,
    pub seal: SealOption,
    pub tape: TapeOption,
}

impl Options {
    pub fn arguments(&self) -> Vec<String> {
        let mut words = Vec::new();
        for card in &self.cards {
            words.extend(["--card".into(), card.file.clone()]);
            if let Some((start, len)) = card.window {
                words.extend(["--window".into(), start.to_string(), len.to_string()]);
            }
        }
        match &self.seal {
            SealOption::Bench => words.push("--bench".into()),
            SealOption::Street { file } => words.extend(["--street".into(), file.clone()]),
        }
        match &self.tape {
            TapeOption::Words { file } => words.extend(["--words".into(), file.clone()]),
            TapeOption::Keyed { file, count } => {
                words.extend(["--keyed".into(), file.clone(), count.to_string()])
            }
        }
        words
    }

    /// The options of a command line; nothing where it is malformed.
    pub fn parse(arguments: impl Iterator<Item = String>) -> Option<Options> {
        let mut words = arguments;
        let mut cards: Vec<CardOption> = Vec::new();
        let (mut seal, mut tape) = (None, None);
        while let Some(word) = words.next() {
            let mut next = || words.next();
            match word.as_str() {
                "--card" => cards.push(CardOption { file: next()?, window: None }),
                "--window" => cards.last_mut()?.window = Some((next()?.parse().ok()?, next()?.parse().ok()?)),
                "--bench" => seal = Some(SealOption::Bench),
                "--street" => seal = Some(SealOption::Street { file: next()? }),
                "--words" => tape = Some(TapeOption::Words { file: next()? }),
                "--keyed" => tape = Some(TapeOption::Keyed { file: next()?, count: next()?.parse().ok()? }),
                _ => return None,
            }
        }
        (cards.len() == 1 || cards.len() == 2).then_some(())?;
        Some(Options { cards, seal: seal?, tape: tape? })
    }
}
