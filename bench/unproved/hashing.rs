//! A quick hasher for short words and numbers: each eight bytes are mixed in by a rotation and a multiplication.

use std::collections::{HashMap, HashSet};
use std::hash::{BuildHasherDefault, Hasher};

pub type QuickMap<K, V> = HashMap<K, V, BuildHasherDefault<QuickHasher>>;
pub type QuickSet<K> = HashSet<K, BuildHasherDefault<QuickHasher>>;

#[derive(Default)]
pub struct QuickHasher {
    state: u64,
}

impl QuickHasher {
    fn mix(&mut self, part: u64) {
        self.state = (self.state.rotate_left(5) ^ part).wrapping_mul(0x9E37_79B9_7F4A_7C15);
    }
}

impl Hasher for QuickHasher {
    fn write(&mut self, bytes: &[u8]) {
        let mut parts = bytes.chunks_exact(8);
        for part in &mut parts {
            self.mix(part.iter().fold(0, |value, byte| value << 8 | *byte as u64));
        }
        let rest = parts.remainder();
        if !rest.is_empty() {
            self.mix(rest.iter().fold(rest.len() as u64, |value, byte| value << 8 | *byte as u64));
        }
    }

    fn write_u8(&mut self, value: u8) {
        self.mix(value as u64);
    }

    fn write_u32(&mut self, value: u32) {
        self.mix(value as u64);
    }

    fn write_usize(&mut self, value: usize) {
        self.mix(value as u64);
    }

    /// The upper bits are the best mixed ones, and the table takes lower ones too.
    fn finish(&self) -> u64 {
        self.state.rotate_left(26)
    }
}
