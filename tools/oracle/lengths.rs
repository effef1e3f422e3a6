//! The plaintext length of an encrypted file: what Apache Iceberg's Rust answers, and what the proved function does.
//!
//!     lengths compare   compares the two on many file lengths; status 1 if they differ anywhere
//!     lengths list      prints the list of the Rust's answers that crates/replay_lengths replays

use iceberg::encryption::stream::{
    AesGcmFileRead, CIPHER_BLOCK_SIZE, GCM_STREAM_HEADER_LENGTH, PLAIN_BLOCK_SIZE,
};
use std::collections::BTreeSet;
use std::fmt;
use std::ops::RangeInclusive;
use std::process::ExitCode;

/// The most full blocks that a file can have whose length fits 64 bits.
const MOST_BLOCKS: u64 = (u64::MAX - GCM_STREAM_HEADER_LENGTH as u64) / CIPHER_BLOCK_SIZE as u64;
/// The most blocks that can be numbered in four bytes.
const MOST_NUMBERED: u64 = u32::MAX as u64;

/// `struct ags1_length` of include/ags1.h.
#[repr(C)]
struct Ags1Length {
    plaintext_length: u64,
    block_count: u64,
    code: u32,
}

#[link(name = "layout", kind = "static")]
unsafe extern "C" {
    safe fn ags1_plaintext_length(file_length: u64, block_size: u32) -> Ags1Length;
}

/// What is said of a file length.
#[derive(PartialEq)]
enum Answer {
    Plaintext(u64),
    Refused(u32),
}

impl fmt::Display for Answer {
    fn fmt(&self, f: &mut fmt::Formatter<'_>) -> fmt::Result {
        match self {
            Answer::Plaintext(length) => write!(f, "{length}"),
            Answer::Refused(code) => write!(f, "refused {code}"),
        }
    }
}

/// The proved function's answer.
fn proved(file_length: u64) -> Answer {
    let answer = ags1_plaintext_length(file_length, PLAIN_BLOCK_SIZE);
    match answer.code {
        0 => Answer::Plaintext(answer.plaintext_length),
        code => Answer::Refused(code),
    }
}

/// The Rust's answer. Of its two refusals 1 is FileTooShort and 2 is CiphertextTooShort.
fn original(file_length: u64) -> Answer {
    match AesGcmFileRead::calculate_plaintext_length(file_length) {
        Ok(length) => Answer::Plaintext(length),
        Err(e) if e.message().starts_with("Encrypted file too short") => Answer::Refused(1),
        Err(e) if e.message().starts_with("Truncated encrypted file") => Answer::Refused(2),
        Err(e) => panic!("a refusal without a code at {file_length}: {e}"),
    }
}

/// The length of a file of so many full blocks.
fn full(blocks: u64) -> u64 {
    GCM_STREAM_HEADER_LENGTH as u64 + blocks * CIPHER_BLOCK_SIZE as u64
}

/// The lengths at most so far from this one.
fn around(length: u64, reach: u64) -> RangeInclusive<u64> {
    length.saturating_sub(reach)..=length.saturating_add(reach)
}

/// Pseudo-random lengths of every magnitude, the same in each run.
fn random(count: usize) -> impl Iterator<Item = u64> {
    let mut state = 0x9e37_79b9_7f4a_7c15_u64;
    (0..count).map(move |i| {
        state ^= state << 13;
        state ^= state >> 7;
        state ^= state << 17;
        state >> (i % 64)
    })
}

/// The lengths that are compared: the first 3,200,000, the last 100,000, those about full blocks and powers of two, and
/// 20,000,000 at random.
fn compared() -> impl Iterator<Item = u64> {
    let blocks = (0..=10_000)
        .chain((14..44).flat_map(|bit| around(1 << bit, 2)))
        .chain(around(MOST_NUMBERED, 1_000))
        .chain(MOST_BLOCKS - 10_000..=MOST_BLOCKS);
    (0..3_200_000)
        .chain(blocks.flat_map(|blocks| around(full(blocks), 64)))
        .chain((0..64).flat_map(|bit| around(1 << bit, 40)))
        .chain(random(20_000_000))
        .chain(u64::MAX - 99_999..=u64::MAX)
}

/// The lengths of the list, in ascending order.
fn listed() -> BTreeSet<u64> {
    let large = [
        1_000,
        1 << 20,
        MOST_NUMBERED - 1,
        MOST_NUMBERED,
        MOST_NUMBERED + 1,
        1 << 40,
        MOST_BLOCKS - 1,
        MOST_BLOCKS,
    ];
    (0..=100)
        .chain((0..=5).flat_map(|blocks| around(full(blocks), 40)))
        .chain(
            large
                .into_iter()
                .flat_map(|blocks| around(full(blocks), 32)),
        )
        .chain((0..64).flat_map(|bit| around(1 << bit, 1)))
        .chain(around(u64::MAX, 16))
        .chain(random(384))
        .collect()
}

fn compare() -> ExitCode {
    let mut count = 0_u64;
    let mut differing = 0_u64;
    for file_length in compared() {
        let (ours, theirs) = (proved(file_length), original(file_length));
        count += 1;
        if ours != theirs {
            differing += 1;
            if differing <= 10 {
                eprintln!("{file_length}: proved {ours}, the Rust {theirs}");
            }
        }
    }
    println!("{count} lengths compared, {differing} differ");
    if differing == 0 {
        ExitCode::SUCCESS
    } else {
        ExitCode::FAILURE
    }
}

fn list() -> ExitCode {
    for file_length in listed() {
        println!("{file_length} {}", original(file_length));
    }
    ExitCode::SUCCESS
}

fn main() -> ExitCode {
    let arguments: Vec<String> = std::env::args().skip(1).collect();
    match arguments.iter().map(String::as_str).collect::<Vec<_>>()[..] {
        ["compare"] => compare(),
        ["list"] => list(),
        _ => {
            eprintln!("usage: lengths compare | list");
            ExitCode::from(2)
        }
    }
}
