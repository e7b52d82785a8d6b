//! The answer to a call, as a value and as a line.

use std::fmt;

use super::hex;
use crate::denial::Denial;
use crate::engine::{Beat, Deed};
use crate::layout::Value;

#[derive(Clone, Debug, PartialEq, Eq)]
pub enum Grant {
    Plain,
    Read(Box<Value>),
    Beat(Beat),
    Face(Vec<u32>),
    Save(Vec<u8>),
}

#[derive(Clone, Debug, PartialEq, Eq)]
pub struct Answer {
    /// The name of the call.
    pub call: &'static str,
    /// Whether a shut store gave it.
    pub shut: bool,
    pub outcome: Result<Grant, Denial>,
}

impl fmt::Display for Answer {
    fn fmt(&self, f: &mut fmt::Formatter) -> fmt::Result {
        match &self.outcome {
            Ok(grant) => write!(f, "{}: granted{grant}", self.call),
            Err(denial) => write!(f, "{}: denied {denial}", self.call),
        }
    }
}

/// What follows the word `granted`.
impl fmt::Display for Grant {
    fn fmt(&self, f: &mut fmt::Formatter) -> fmt::Result {
        match self {
            Grant::Plain => Ok(()),
            Grant::Read(value) => write!(f, " {}", hex(&value[..])),
            Grant::Beat(Beat { place, counter, deed }) => {
                write!(f, " place {place} counter {counter} {deed}")
            }
            Grant::Face(counters) => counters.iter().try_for_each(|counter| write!(f, " {counter}")),
            Grant::Save(map) => write!(f, " {} {}", map.len(), hex(map)),
        }
    }
}

impl fmt::Display for Deed {
    fn fmt(&self, f: &mut fmt::Formatter) -> fmt::Result {
        match self {
            Deed::Dummy => f.write_str("dummy"),
            Deed::Landed(block) => write!(f, "landed {block}"),
            Deed::SealedAgain(block) => write!(f, "sealed-again {block}"),
        }
    }
}
