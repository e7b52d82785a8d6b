//! The bytes of bodies and records. All numbers have the lowest byte first.

pub const VALUE_LEN: usize = 48;
pub const BODY_LEN: usize = 52;
pub const RECORD_LEN: usize = 64;

/// Where the sealed body stands in a record, and where the tag begins.
pub const BODY_AT: usize = 4;
pub const TAG_AT: usize = 56;

pub type Value = [u8; VALUE_LEN];
pub type Body = [u8; BODY_LEN];
pub type Record = [u8; RECORD_LEN];

/// The block number of a body that holds no block.
pub const NO_BLOCK: u32 = u32::MAX;

/// A body without a block.
pub const DUMMY: Body = {
    let mut body = [0; BODY_LEN];
    let mut i = 0;
    while i < 4 {
        body[i] = 0xff;
        i += 1;
    }
    body
};

/// The 32-bit number at the front of `bytes`.
///
/// # Panics
/// If there are fewer than four bytes.
#[inline]
pub fn number_at_front(bytes: &[u8]) -> u32 {
    u32::from_le_bytes(*bytes.first_chunk().expect("four bytes"))
}

/// The clear counter of a record.
#[inline]
pub fn clear_counter(record: &Record) -> u32 {
    number_at_front(record)
}

/// The block number of a body.
#[inline]
pub fn block_of(body: &Body) -> u32 {
    number_at_front(body)
}

/// The value of a body.
#[inline]
pub fn value_of(body: &Body) -> &Value {
    body.last_chunk().expect("a body is longer than a value")
}

/// The body of a block and its value.
#[inline]
pub fn body(block: u32, value: &Value) -> Body {
    let mut body = [0; BODY_LEN];
    body[..4].copy_from_slice(&block.to_le_bytes());
    body[4..].copy_from_slice(value);
    body
}

/// `bytes` filled with zeros to a value, or nothing where they are too long for one.
pub fn filled(bytes: &[u8]) -> Option<Value> {
    let mut value = [0; VALUE_LEN];
    value.get_mut(..bytes.len())?.copy_from_slice(bytes);
    Some(value)
}
