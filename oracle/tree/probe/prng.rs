//! Appended to prng.rs: its private output and state.

use super::Prng;

impl Prng {
    pub(crate) fn output(&mut self) -> u64 {
        self.next_u64()
    }

    pub(crate) fn state(&self) -> u64 {
        self.0
    }
}
