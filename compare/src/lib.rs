//! A hiding store in plain Rust: a write-only oblivious RAM with one card write a beat.
//!
//! It is written from the pages in `docs/` and shares no code with the proved store. The modules up to
//! [`store`] are the store itself; [`dock`] is the script language of the program `dock`.

pub mod card;
pub mod cipher;
pub mod denial;
pub mod dock;
pub mod engine;
pub mod layout;
pub mod mapfile;
pub mod seal;
pub mod store;
pub mod tape;
