//! Tapes give random words.

use crate::cipher::{self, chacha20};
use crate::denial::TapeFault;

pub trait Tape {
    /// Gives the first word and removes it.
    fn draw(&mut self) -> Result<u32, TapeFault>;

    /// Whether a word is left.
    fn more(&self) -> bool;
}

impl<T: Tape + ?Sized> Tape for Box<T> {
    fn draw(&mut self) -> Result<u32, TapeFault> {
        (**self).draw()
    }

    fn more(&self) -> bool {
        (**self).more()
    }
}

/// Words that are lent to it.
#[derive(Clone, Debug)]
pub struct WordTape<'a> {
    words: &'a [u32],
}

impl<'a> WordTape<'a> {
    pub fn new(words: &'a [u32]) -> Self {
        WordTape { words }
    }
}

impl Tape for WordTape<'_> {
    #[inline]
    fn draw(&mut self) -> Result<u32, TapeFault> {
        let (&first, rest) = self.words.split_first().ok_or(TapeFault::Spent)?;
        self.words = rest;
        Ok(first)
    }

    fn more(&self) -> bool {
        !self.words.is_empty()
    }
}

/// So many words of ChaCha20's stream under a key and a nonce.
#[derive(Clone, Debug)]
pub struct KeyedTape {
    key: cipher::Key,
    nonce: cipher::Nonce,
    drawn: u32,
    count: u32,
    block: [u32; 16],
}

impl KeyedTape {
    pub fn new(key: &[u8; 32], nonce: &[u8; 12], count: u32) -> Self {
        KeyedTape { key: cipher::words(key), nonce: cipher::words(nonce), drawn: 0, count, block: [0; 16] }
    }
}

impl Tape for KeyedTape {
    #[inline]
    fn draw(&mut self) -> Result<u32, TapeFault> {
        if !self.more() {
            return Err(TapeFault::Spent);
        }
        if self.drawn.is_multiple_of(16) {
            self.block = chacha20(&self.key, self.drawn / 16, &self.nonce);
        }
        let word = self.block[(self.drawn % 16) as usize];
        self.drawn += 1;
        Ok(word)
    }

    fn more(&self) -> bool {
        self.drawn < self.count
    }
}
