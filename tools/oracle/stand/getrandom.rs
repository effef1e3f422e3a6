//! Stands in for the crate getrandom, from which aes-gcm has its random numbers. Here they come from a generator that is
//! seeded, so that they are the same in each run; before it is seeded, or once it is dry, none come.

use std::cell::Cell;
use std::fmt;

thread_local! {
    static STATE: Cell<Option<u64>> = const { Cell::new(None) };
}

/// From here on the numbers that belong to this seed come.
pub fn seed(seed: u64) {
    STATE.set(Some(seed));
}

/// From here on none come.
pub fn dry() {
    STATE.set(None);
}

#[derive(Debug)]
pub struct Error;

impl fmt::Display for Error {
    fn fmt(&self, f: &mut fmt::Formatter<'_>) -> fmt::Result {
        f.write_str("no random numbers")
    }
}

/// Fills the bytes by splitmix64.
pub fn getrandom(bytes: &mut [u8]) -> Result<(), Error> {
    for part in bytes.chunks_mut(8) {
        let state = STATE
            .get()
            .ok_or(Error)?
            .wrapping_add(0x9e37_79b9_7f4a_7c15);
        STATE.set(Some(state));
        let mut word = (state ^ (state >> 30)).wrapping_mul(0xbf58_476d_1ce4_e5b9);
        word = (word ^ (word >> 27)).wrapping_mul(0x94d0_49bb_1331_11eb);
        word ^= word >> 31;
        part.copy_from_slice(&word.to_le_bytes()[..part.len()]);
    }
    Ok(())
}
