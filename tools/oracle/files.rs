//! Prints the list of files and reads that crates/replay_files replays, with what Apache Iceberg's Rust makes of each.
//!
//! One case to a line. Fields are separated by one blank; numbers are decimal, bytes hexadecimal in lower case, lists have
//! commas between their members, and `-` stands for no bytes, an empty list or no limit. A refusal is `R`, its code, a dot
//! and its position.
//!
//!     file KEY PREFIX SEED ROOM CALLS RESULTS LENGTH FNV64 NONCES TAGS
//!
//! A writer with this key and AAD prefix, on a sink that takes ROOM bytes in all and refuses a write that passes them. Each
//! of CALLS is the length of a write, or `c` for a close; RESULTS has `ok` or a refusal for each. Byte k of all that is
//! handed to the writes, refused ones too, is (31 k + 7 (k div 2^8) + 13 (k div 2^16) + SEED) mod 256. In the end the sink
//! holds LENGTH bytes, whose FNV-1a hash of 64 bits is FNV64 in sixteen hexadecimal digits. NONCES are all that were drawn,
//! in their order, and TAGS those of the blocks that the sink took; one nonce more than tags is that of a block that the
//! sink refused.
//!
//!     read HOW START END RESULT
//!
//! A read from START to END of the file of the last line `file`, changed as HOW says. RESULT is `COUNT:FNV64` of the bytes
//! that are answered, or a refusal; one by 1 or 2 is that of making the reader. HOW is
//!
//!     whole        nothing is changed
//!     flip:N       the lowest bit of byte N is changed
//!     swap:I       block I and the next one, both full, change places
//!     cut:N        the file is its first N bytes, and the reader is told that length
//!     short:N      the source has the first N bytes only, and the reader is told the file's length
//!     prefix:HEX   the reader is given this AAD prefix
//!
//!     open LENGTH RESULT
//!
//! The making of a reader that is told this length: RESULT is the plaintext length, or a refusal.
//!
//! All of this is what the Rust answers, but for positions, which it does not tell, and for 13, which is a refusal by a
//! sink that has not taken the header. The position of a refused block is the number of blocks that the sink took before
//! it. That of a read is the first block whose part of the range the Rust refuses when it is asked for that part alone, and
//! it has to refuse both by the same code.

mod harness;

use harness::{B, C, H, Sink, Source, code, done, plaintext, reader, writer};
use iceberg::Error;
use iceberg::encryption::stream::AesGcmFileRead;
use iceberg::io::{FileRead, FileWrite};
use std::collections::BTreeSet;
use std::fmt;
use std::ops::Range;

/// The lengths of keys and prefixes, which the files take in turn.
const KEY_LENGTHS: [usize; 3] = [16, 24, 32];
const PREFIX_LENGTHS: [usize; 4] = [0, 1, 5, 64];

/// What the writer of a file was given, and what its sink holds.
struct File {
    key: Vec<u8>,
    prefix: Vec<u8>,
    seed: u64,
    bytes: Vec<u8>,
}

/// What becomes of a file before it is read.
enum How {
    Whole,
    Flip(u64),
    Swap(u64),
    Cut(u64),
    Short(u64),
    Prefix(Vec<u8>),
}

impl fmt::Display for How {
    fn fmt(&self, f: &mut fmt::Formatter<'_>) -> fmt::Result {
        match self {
            How::Whole => f.write_str("whole"),
            How::Flip(at) => write!(f, "flip:{at}"),
            How::Swap(block) => write!(f, "swap:{block}"),
            How::Cut(length) => write!(f, "cut:{length}"),
            How::Short(length) => write!(f, "short:{length}"),
            How::Prefix(prefix) => write!(f, "prefix:{}", hex(prefix)),
        }
    }
}

fn hex(bytes: &[u8]) -> String {
    if bytes.is_empty() {
        return "-".to_string();
    }
    bytes.iter().map(|byte| format!("{byte:02x}")).collect()
}

fn list(members: Vec<String>) -> String {
    if members.is_empty() {
        return "-".to_string();
    }
    members.join(",")
}

/// FNV-1a in 64 bits.
fn fnv64(bytes: &[u8]) -> u64 {
    bytes.iter().fold(0xcbf2_9ce4_8422_2325, |hash, &byte| {
        (hash ^ u64::from(byte)).wrapping_mul(0x100_0000_01b3)
    })
}

fn random(length: usize) -> Vec<u8> {
    let mut bytes = vec![0; length];
    getrandom::getrandom(&mut bytes).expect("it is seeded");
    bytes
}

/// Writes a file and prints its line. What is random comes from a seed of its own, and stays when other files come or go.
fn write_file(key_length: usize, prefix_length: usize, room: Option<u64>, calls: &str) -> File {
    let limit = room.map_or("-".to_string(), |room| room.to_string());
    let own = format!("{key_length} {prefix_length} {limit} {calls}");
    getrandom::seed(fnv64(own.as_bytes()));
    let (key, prefix) = (random(key_length), random(prefix_length));
    let seed = u64::from(random(1)[0]);

    let sink = Sink::new(room);
    let results = run(&sink, &key, &prefix, seed, calls);
    let bytes = sink.handed().bytes.clone();
    let (nonces, tags) = nonces_and_tags(&sink);
    println!(
        "file {} {} {seed} {limit} {calls} {} {} {:016x} {} {}",
        hex(&key),
        hex(&prefix),
        list(results),
        bytes.len(),
        fnv64(&bytes),
        list(nonces),
        list(tags)
    );
    File {
        key,
        prefix,
        seed,
        bytes,
    }
}

/// The results of calls of a writer.
fn run(sink: &Sink, key: &[u8], prefix: &[u8], seed: u64, calls: &str) -> Vec<String> {
    let mut writer = writer(sink.clone(), key, prefix);
    let mut place = 0;
    let mut results = Vec::new();
    for call in calls.split(',').filter(|call| *call != "-") {
        let result = if call == "c" {
            done(writer.close())
        } else {
            let start = place;
            place += call.parse::<u64>().expect("a length");
            done(writer.write(plaintext(seed, start..place).into()))
        };
        results.push(match result {
            Ok(()) => "ok".to_string(),
            Err(e) => write_refusal(&e, sink),
        });
    }
    results
}

/// A writer's refusal.
fn write_refusal(error: &Error, sink: &Sink) -> String {
    match (code(error), sink.handed().writes.len()) {
        (14, 0) => refusal(13, 0),
        (14, taken) => refusal(14, taken as u64 - 1),
        (code, _) => refusal(code, 0),
    }
}

fn refusal(code: u32, position: u64) -> String {
    format!("R{code}.{position}")
}

/// The nonces of the blocks that a sink was handed, and the tags of those that it took.
fn nonces_and_tags(sink: &Sink) -> (Vec<String>, Vec<String>) {
    let handed = sink.handed();
    let mut nonces = Vec::new();
    let mut tags = Vec::new();
    let mut end = 0;
    for (i, length) in handed.writes.iter().enumerate() {
        let write = &handed.bytes[end..end + length];
        end += length;
        if i > 0 {
            nonces.push(hex(&write[..12]));
            tags.push(hex(&write[length - 16..]));
        }
    }
    if end > 0 {
        nonces.extend(handed.refused.iter().map(|block| hex(&block[..12])));
    }
    (nonces, tags)
}

impl File {
    fn length(&self) -> u64 {
        self.bytes.len() as u64
    }

    fn plaintext_length(&self) -> u64 {
        AesGcmFileRead::calculate_plaintext_length(self.length()).expect("a file that was closed")
    }

    /// Where a block begins and ends.
    fn block(&self, block: u64) -> Range<u64> {
        let start = H + block * C;
        start..self.length().min(start + C)
    }

    /// A reader of the file after a change.
    fn changed(&self, how: &How) -> iceberg::Result<AesGcmFileRead> {
        let mut bytes = self.bytes.clone();
        let mut prefix = &self.prefix;
        let mut length = self.length();
        match how {
            How::Whole => {}
            How::Flip(at) => bytes[*at as usize] ^= 1,
            How::Swap(block) => {
                let (start, size) = (self.block(*block).start as usize, C as usize);
                let (one, next) = bytes[start..start + 2 * size].split_at_mut(size);
                one.swap_with_slice(next);
            }
            How::Cut(to) => {
                bytes.truncate(*to as usize);
                length = *to;
            }
            How::Short(to) => bytes.truncate(*to as usize),
            How::Prefix(other) => prefix = other,
        }
        reader(Source(bytes), &self.key, prefix, length)
    }

    /// Reads the file after a change, and prints the line.
    fn read(&self, how: How, start: u64, end: u64) {
        let result = match self.changed(&how) {
            Ok(reader) => self.answer(&reader, start..end),
            Err(e) => refusal(code(&e), 0),
        };
        println!("read {how} {start} {end} {result}");
    }

    fn answer(&self, reader: &AesGcmFileRead, range: Range<u64>) -> String {
        match done(reader.read(range.clone())) {
            Ok(bytes) => {
                assert_eq!(*bytes, plaintext(self.seed, range));
                format!("{}:{:016x}", bytes.len(), fnv64(&bytes))
            }
            Err(e) => read_refusal(code(&e), reader, range),
        }
    }

    /// Reads between any two places about the start, the block borders and the end, and at some far from these.
    fn read_borders(&self) {
        let n = self.plaintext_length();
        let places: BTreeSet<u64> = [0, B, 2 * B, n]
            .into_iter()
            .flat_map(|place: u64| place.saturating_sub(1)..=place + 1)
            .filter(|place| *place <= n + 1)
            .collect();
        for start in &places {
            for end in &places {
                self.read(How::Whole, *start, *end);
            }
        }
        let far = [
            (n + 1_000, n + 1_000),
            (n + 5, n + 2),
            (0, u64::MAX),
            (u64::MAX, 0),
            (u64::MAX - 1, u64::MAX),
            (u64::MAX, u64::MAX),
        ];
        for (start, end) in far {
            self.read(How::Whole, start, end);
        }
    }

    /// Reads everything, the first byte, the last one, and the one after it.
    fn read_ends(&self) {
        let n = self.plaintext_length();
        for (start, end) in BTreeSet::from([(0, n), (0, 1), (n - 1, n), (n, n + 1)]) {
            self.read(How::Whole, start, end);
        }
    }

    /// Reads everything where the first or last byte of a block's nonce, ciphertext or tag is changed.
    fn read_damaged(&self, block: u64) {
        let Range { start, end } = self.block(block);
        let places = [start, start + 11, start + 12, end - 17, end - 16, end - 1];
        for at in BTreeSet::from(places) {
            self.read(How::Flip(at), 0, self.plaintext_length());
        }
    }

    /// Reads everything with other AAD prefixes: a byte more, a byte less, a byte changed, none; and with its own.
    fn read_other_prefixes(&self) {
        let own = &self.prefix[..];
        let mut prefixes = BTreeSet::from([[own, &[0]].concat(), Vec::new(), own.to_vec()]);
        if let [most @ .., last] = own {
            prefixes.insert(most.to_vec());
            prefixes.insert([most, &[*last ^ 1]].concat());
        }
        for prefix in prefixes {
            self.read(How::Prefix(prefix), 0, self.plaintext_length());
        }
    }
}

/// A reader's refusal of a range by this code.
fn read_refusal(whole: u32, reader: &AesGcmFileRead, range: Range<u64>) -> String {
    if whole == 5 || whole == 6 {
        return refusal(whole, 0);
    }
    for block in range.start / B..=(range.end - 1) / B {
        let part = range.start.max(block * B)..range.end.min((block + 1) * B);
        if let Err(e) = done(reader.read(part)) {
            assert_eq!(code(&e), whole, "{range:?} and its part in block {block}");
            return refusal(whole, block);
        }
    }
    panic!("{range:?} is refused, and no part of it is");
}

/// Reads a closed file of so many bytes.
fn read_file(file: &File, length: u64) {
    match length {
        0..=2 | 5 | 16 | 1_000 | 65_536.. => file.read_borders(),
        _ => file.read_ends(),
    }
    match length {
        // no byte of this one's block is ever fetched
        0 => file.read(How::Flip(H + 27), 0, 1),
        5 => read_five_bytes(file),
        _ if length == 3 * B - 1 => read_three_blocks(file),
        _ => file.read_damaged((length - 1) / B),
    }
    if length > 0 {
        file.read_other_prefixes();
    }
}

/// Reads a file of five bytes, changed in every byte, cut to every length, and from every shorter source.
fn read_five_bytes(file: &File) {
    for at in 0..file.length() {
        file.read(How::Flip(at), 0, 5);
    }
    for length in 0..file.length() {
        file.read(How::Cut(length), 0, 1);
    }
    for length in 0..file.length() {
        file.read(How::Short(length), 1, 4);
    }
}

/// Reads a file of three blocks, the last of them not full, after changes.
fn read_three_blocks(file: &File) {
    let n = file.plaintext_length();
    let parts = [(0, n), (0, B), (B - 1, B + 1), (B, 2 * B), (2 * B, n)];
    let borders = [H, H + C, H + 2 * C];
    for at in 0..H {
        file.read(How::Flip(at), 0, n);
    }
    for block in 0..3 {
        file.read_damaged(block);
        for (start, end) in parts {
            file.read(How::Flip(borders[block as usize] + 500), start, end);
        }
    }
    for (start, end) in parts {
        file.read(How::Swap(0), start, end);
    }
    let cuts = borders.map(|place| [0, 1, 27, 28, 29, C - 1].map(|more| place + more));
    for length in [0, H - 1].into_iter().chain(cuts.into_iter().flatten()) {
        let whole = AesGcmFileRead::calculate_plaintext_length(length).unwrap_or(1);
        for end in BTreeSet::from([whole.min(B), whole]) {
            file.read(How::Cut(length), 0, end);
        }
    }
    for place in borders.into_iter().chain([file.length()]) {
        for (start, end) in parts {
            file.read(How::Short(place - 1), start, end);
        }
    }
    for (start, end) in parts {
        file.read(How::Short(H + C), start, end);
    }
}

/// The plaintext lengths of closed files of one write.
fn written_at_once() -> impl Iterator<Item = u64> {
    (0..=34)
        .chain([47, 48, 49, 63, 64, 65, 100, 255, 256, 257, 1_000])
        .chain([4_095, 4_096, 4_097, 65_535, 65_536])
        .chain([B - 1, B, B + 1, 2 * B, 2 * B + 1, 3 * B - 1])
}

/// The calls of closed files of several writes, or of none.
fn written_in_parts() -> Vec<String> {
    vec![
        "c".to_string(),
        "0,0,c".to_string(),
        "1,2,3,4,5,c".to_string(),
        "0,7,0,9,0,c".to_string(),
        "13,1000,77,4099,c".to_string(),
        format!("1,{},c", B - 2),
        "524289,524287,c".to_string(),
        format!("{},1,c", B - 1),
        format!("{B},1,c"),
        format!("1,{B},c"),
        format!("{B},{B},c"),
        format!("{},{},1,c", B - 1, B + 1),
        format!("3,{},0,{},c", B - 3, B + 1),
        format!("{},{},c", B + 7, 2 * B - 8),
        format!("{},314570,c", ["314573"; 9].join(",")),
    ]
}

/// The calls of files that are not closed, and of writers that are called again when they are.
fn open_or_called_again() -> Vec<String> {
    vec![
        "-".to_string(),
        "0".to_string(),
        "5".to_string(),
        format!("{}", B - 1),
        format!("{B}"),
        format!("{},6", B + 1),
        "c,c".to_string(),
        "c,0,c".to_string(),
        "c,1".to_string(),
        "0,c,c,1,c".to_string(),
        "5,c,3,c".to_string(),
        "5,c,0,c,c".to_string(),
        format!("{B},c,1,c"),
        format!("{},c,{B},c", B + 1),
    ]
}

/// Room and calls where a sink refuses the header, the first block, a later or the last one, or where all just fits.
fn refused() -> Vec<(u64, String)> {
    let mut cases = Vec::new();
    for room in [0, H - 1] {
        for calls in ["c,c,1", "0,0,c", "5,c,1,c"] {
            cases.push((room, calls.to_string()));
        }
    }
    cases.extend([
        (H - 1, format!("{B},c")),
        (H, "0,c,c".to_string()),
        (H, "5,c,1,c".to_string()),
        (H + 27, "c,c,0".to_string()),
        (H + 28, "c,c".to_string()),
        (H + 32, "5,c,c,1".to_string()),
        (H + 33, "5,c,c".to_string()),
        (H + 29, format!("{B},1,c")),
        (H + C - 1, format!("{B},0,c")),
        (H + C - 1, format!("{},1,c", B + 1)),
        (H + C, format!("{B},c")),
        (H + C, format!("{B},1,c,c")),
        (H + C + 28, format!("{},c,c,1", B + 1)),
        (H + C + 29, format!("{},c,c", B + 1)),
        (H + C, format!("{},1,c", 2 * B)),
        (H + 2 * C - 1, format!("{B},{B},0,c")),
        (H + 2 * C, format!("{},c", 2 * B)),
        (H + C, format!("{},c", 3 * B - 1)),
        (H + 3 * C - 2, format!("{},c,c", 3 * B - 1)),
        (H + 3 * C - 1, format!("{},c,c", 3 * B - 1)),
    ]);
    cases
}

/// Prints what the making of a reader answers for lengths about borders and the limit.
fn open_lengths() {
    let most = u64::from(u32::MAX);
    let borders = [0, 1, most - 1, most].map(|blocks| H + blocks * C);
    let lengths = borders
        .iter()
        .flat_map(|place| [0, 1, 27, 28, 29, C - 1].map(|more| place + more));
    for length in lengths.chain([0, H - 1, H + (most + 1) * C, u64::MAX]) {
        let result = match reader(Source(Vec::new()), &[0; 16], &[], length) {
            Ok(reader) => reader.plaintext_length().to_string(),
            Err(e) => refusal(code(&e), 0),
        };
        println!("open {length} {result}");
    }
}

fn main() {
    let mut key_lengths = KEY_LENGTHS.into_iter().cycle();
    let mut prefix_lengths = PREFIX_LENGTHS.into_iter().cycle();
    let mut write = |room: Option<u64>, calls: &str| {
        let lengths = key_lengths.next().zip(prefix_lengths.next());
        let (key_length, prefix_length) = lengths.expect("they go on for ever");
        write_file(key_length, prefix_length, room, calls)
    };
    for length in written_at_once() {
        read_file(&write(None, &format!("{length},c")), length);
    }
    for calls in written_in_parts() {
        let file = write(None, &calls);
        file.read(How::Whole, 0, file.plaintext_length());
    }
    for calls in open_or_called_again() {
        write(None, &calls);
    }
    for (room, calls) in refused() {
        write(Some(room), &calls);
    }
    open_lengths();
}
