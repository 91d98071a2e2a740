//! Stand-in, not the crate ahash: a hasher of about the same cost, one
//! folded multiplication a word. The indexes use it under the feature `std`;
//! no answer depends on it, since both sort what they take from their maps.

use std::hash::{BuildHasher, Hasher};

const MULTIPLE: u64 = 6_364_136_223_846_793_005;
const START: u64 = 0x243F_6A88_85A3_08D3;

/// The same start for every map, so that a run can be repeated.
#[derive(Clone, Debug, Default)]
pub struct RandomState;

impl BuildHasher for RandomState {
    type Hasher = AHasher;

    #[inline]
    fn build_hasher(&self) -> AHasher {
        AHasher(START)
    }
}

#[derive(Clone, Debug)]
pub struct AHasher(u64);

/// Low half of the product of 128 bits, exclusive-or its high half.
#[inline]
fn folded_multiply(a: u64, b: u64) -> u64 {
    let product = u128::from(a) * u128::from(b);
    (product as u64) ^ ((product >> 64) as u64)
}

impl Hasher for AHasher {
    #[inline]
    fn write(&mut self, bytes: &[u8]) {
        for part in bytes.chunks(8) {
            let mut word = [0; 8];
            word[..part.len()].copy_from_slice(part);
            self.write_u64(u64::from_le_bytes(word));
        }
    }

    #[inline]
    fn write_u32(&mut self, word: u32) {
        self.write_u64(u64::from(word));
    }

    #[inline]
    fn write_u64(&mut self, word: u64) {
        self.0 = folded_multiply(self.0 ^ word, MULTIPLE);
    }

    #[inline]
    fn finish(&self) -> u64 {
        folded_multiply(self.0, START).rotate_left((self.0 & 63) as u32)
    }
}
