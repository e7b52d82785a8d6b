//! ChaCha20's block function (RFC 8439) and SipHash-2-4.

#![allow(deprecated)]

use std::hash::{Hasher, SipHasher};

pub type Key = [u32; 8];
pub type Nonce = [u32; 3];

const CONSTANTS: [u32; 4] = [0x6170_7865, 0x3320_646e, 0x7962_2d32, 0x6b20_6574];

/// The 32-bit words of `bytes`, lowest byte first; bytes after the last whole word are left out.
pub fn words<const N: usize>(bytes: &[u8]) -> [u32; N] {
    let (chunks, _) = bytes.as_chunks();
    std::array::from_fn(|i| u32::from_le_bytes(chunks[i]))
}

#[inline(always)]
fn quarter_round(state: &mut [u32; 16], [a, b, c, d]: [usize; 4]) {
    for (left, right) in [(16, 12), (8, 7)] {
        state[a] = state[a].wrapping_add(state[b]);
        state[d] = (state[d] ^ state[a]).rotate_left(left);
        state[c] = state[c].wrapping_add(state[d]);
        state[b] = (state[b] ^ state[c]).rotate_left(right);
    }
}

/// The sixteen words of a ChaCha20 block.
#[inline]
pub fn chacha20(key: &Key, counter: u32, nonce: &Nonce) -> [u32; 16] {
    let mut start = [0; 16];
    start[..4].copy_from_slice(&CONSTANTS);
    start[4..12].copy_from_slice(key);
    start[12] = counter;
    start[13..].copy_from_slice(nonce);
    let mut state = start;
    for _ in 0..10 {
        for column in [[0, 4, 8, 12], [1, 5, 9, 13], [2, 6, 10, 14], [3, 7, 11, 15]] {
            quarter_round(&mut state, column);
        }
        for diagonal in [[0, 5, 10, 15], [1, 6, 11, 12], [2, 7, 8, 13], [3, 4, 9, 14]] {
            quarter_round(&mut state, diagonal);
        }
    }
    std::array::from_fn(|i| state[i].wrapping_add(start[i]))
}

/// A 16-byte key for SipHash-2-4.
#[derive(Clone, Debug)]
pub struct SipKey(SipHasher);

impl SipKey {
    pub fn new(key: &[u8; 16]) -> Self {
        let key = u128::from_le_bytes(*key);
        SipKey(SipHasher::new_with_keys(key as u64, (key >> 64) as u64))
    }

    /// The hash of `front` followed by `rest`.
    #[inline]
    pub fn hash(&self, front: &[u8], rest: &[u8]) -> u64 {
        let mut hasher = self.0.clone();
        hasher.write(front);
        hasher.write(rest);
        hasher.finish()
    }
}

#[cfg(test)]
mod tests {
    use super::*;

    #[test]
    fn block_of_rfc_8439_section_2_3_2() {
        let key: Vec<u8> = (0..32).collect();
        let nonce = [0, 0, 0, 9, 0, 0, 0, 0x4a, 0, 0, 0, 0];
        let block = chacha20(&words(&key), 1, &words(&nonce));
        assert_eq!(block[0], 0xe4e7_f110);
        assert_eq!(block[15], 0x4e3c_50a2);
    }

    #[test]
    fn first_hashes_of_the_reference_list() {
        let key = SipKey::new(&std::array::from_fn(|i| i as u8));
        assert_eq!(key.hash(&[], &[]), 0x726f_db47_dd0e_0e31);
        assert_eq!(key.hash(&[], &[0]), 0x74f8_39c5_93dc_67fd);
        assert_eq!(key.hash(&[0], &[1]), 0x0d6c_8009_d9a9_4f5a);
    }
}
