//! The program `dock`: its options, its script language and its answers, on files held in memory.

pub mod answer;
pub mod call;
pub mod options;
pub mod session;

use std::collections::BTreeMap;

pub use answer::{Answer, Grant};
pub use call::Call;
pub use options::{CardOption, Options, SealOption, TapeOption};
pub use session::{with_session, Session};

/// Files by name.
pub type Files = BTreeMap<String, Vec<u8>>;

/// Bytes in hex, two small letters or digits each.
pub fn hex(bytes: &[u8]) -> String {
    bytes.iter().map(|byte| format!("{byte:02x}")).collect()
}

/// The bytes that stand in hex, or nothing where it is no hex.
pub fn unhex(text: &str) -> Option<Vec<u8>> {
    let (pairs, []) = text.as_bytes().as_chunks::<2>() else {
        return None;
    };
    let digit = |letter: u8| char::from(letter).to_digit(16).map(|digit| digit as u8);
    pairs.iter().map(|&[high, low]| Some(digit(high)? << 4 | digit(low)?)).collect()
}
