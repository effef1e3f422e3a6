//! What files.rs and departures.rs share: sinks and sources in memory, and what the Rust's refusals are called here.

use bytes::Bytes;
use iceberg::encryption::stream::{
    AesGcmFileRead, AesGcmFileWrite, CIPHER_BLOCK_SIZE, GCM_STREAM_HEADER_LENGTH, PLAIN_BLOCK_SIZE,
};
use iceberg::encryption::{AesGcmCipher, SecureKey};
use iceberg::io::{FileRead, FileWrite};
use iceberg::{Error, ErrorKind, Result};
use std::ops::Range;
use std::pin::pin;
use std::sync::{Arc, Mutex, MutexGuard};
use std::task::{Context, Poll, Waker};

/// The bytes of a file's header.
pub const H: u64 = GCM_STREAM_HEADER_LENGTH as u64;
/// The plaintext bytes of a full block.
pub const B: u64 = PLAIN_BLOCK_SIZE as u64;
/// The bytes that a full block takes in a file.
pub const C: u64 = CIPHER_BLOCK_SIZE as u64;

const SINK_REFUSES: &str = "the sink takes no more";
const SOURCE_REFUSES: &str = "the source does not have the range";

/// What a sink was handed.
#[derive(Default)]
pub struct Handed {
    /// The bytes that it took.
    pub bytes: Vec<u8>,
    /// The lengths of the writes that it took.
    pub writes: Vec<usize>,
    /// The writes that it refused.
    pub refused: Vec<Vec<u8>>,
}

/// A sink that takes so many bytes, or any number: a write is taken whole, or refused whole.
#[derive(Clone)]
pub struct Sink {
    room: Option<u64>,
    handed: Arc<Mutex<Handed>>,
}

impl Sink {
    pub fn new(room: Option<u64>) -> Sink {
        Sink {
            room,
            handed: Arc::default(),
        }
    }

    pub fn handed(&self) -> MutexGuard<'_, Handed> {
        self.handed.lock().expect("no call panics in a sink")
    }
}

#[async_trait::async_trait]
impl FileWrite for Sink {
    async fn write(&mut self, bytes: Bytes) -> Result<()> {
        let mut handed = self.handed();
        let length = (handed.bytes.len() + bytes.len()) as u64;
        if self.room.is_some_and(|room| length > room) {
            handed.refused.push(bytes.to_vec());
            return Err(Error::new(ErrorKind::Unexpected, SINK_REFUSES));
        }
        handed.bytes.extend_from_slice(&bytes);
        handed.writes.push(bytes.len());
        Ok(())
    }

    async fn close(&mut self) -> Result<()> {
        Ok(())
    }
}

/// A source of these bytes, which refuses a range that passes their end.
pub struct Source(pub Vec<u8>);

#[async_trait::async_trait]
impl FileRead for Source {
    async fn read(&self, range: Range<u64>) -> Result<Bytes> {
        match self.0.get(range.start as usize..range.end as usize) {
            Some(bytes) => Ok(Bytes::from(bytes.to_vec())),
            None => Err(Error::new(ErrorKind::Unexpected, SOURCE_REFUSES)),
        }
    }
}

/// Runs a call to its end, which no sink or source may put off.
pub fn done<T>(call: impl Future<Output = T>) -> T {
    match pin!(call).poll(&mut Context::from_waker(Waker::noop())) {
        Poll::Ready(answer) => answer,
        Poll::Pending => panic!("a call waits"),
    }
}

fn cipher(key: &[u8]) -> Arc<AesGcmCipher> {
    let key = SecureKey::new(key).expect("a key of 16, 24 or 32 bytes");
    Arc::new(AesGcmCipher::new(key))
}

pub fn writer(sink: impl FileWrite, key: &[u8], prefix: &[u8]) -> AesGcmFileWrite {
    AesGcmFileWrite::new(Box::new(sink), cipher(key), prefix)
}

pub fn reader(
    source: impl FileRead,
    key: &[u8],
    prefix: &[u8],
    length: u64,
) -> Result<AesGcmFileRead> {
    AesGcmFileRead::new(Box::new(source), cipher(key), prefix.into(), length)
}

/// The code of a refusal. The Rust has no codes: its error is told by the beginning of its text, that of a sink or a source
/// by the text that it is given here. A sink refuses header and blocks alike, which is 14.
pub fn code(error: &Error) -> u32 {
    let codes = [
        ("Encrypted file too short", 1),
        ("Truncated encrypted file", 2),
        ("AGS1 format supports at most", 3),
        ("AGS1 block index overflow", 3),
        ("Invalid read range", 5),
        ("Read range", 6),
        (SOURCE_REFUSES, 8),
        ("AES-GCM decryption failed", 9),
        ("Cannot write to a closed", 11),
        ("AesGcmFileWrite already closed", 11),
        ("AesGcmFileWrite is in a poisoned state", 12),
        (SINK_REFUSES, 14),
    ];
    let text = error.message();
    match codes.iter().find(|(start, _)| text.starts_with(start)) {
        Some((_, code)) => *code,
        None => panic!("a refusal without a code: {error}"),
    }
}

/// The plaintext that belongs to a seed, from one place to another. It does not repeat within a file.
pub fn plaintext(seed: u64, range: Range<u64>) -> Vec<u8> {
    range
        .map(|k| (31 * k + 7 * (k >> 8) + 13 * (k >> 16) + seed) as u8)
        .collect()
}
