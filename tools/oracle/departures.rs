//! Prints what Apache Iceberg's Rust does where it departs from the rules of this library, one run to a line. What the
//! library does there is said in docs/DIFFERENCES.md.
//!
//! A line names the calls with what came of each: `ok`, R and the code of the refusal, or a panic. After a writer's calls
//! it says what its sink took, and what a read of the whole file answers then.

mod harness;

use bytes::Bytes;
use harness::{B, C, H, Sink, Source, code, done, plaintext, reader, writer};
use iceberg::encryption::stream::{AesGcmFileRead, AesGcmFileWrite};
use iceberg::io::{FileRead, FileWrite};
use iceberg::{Error, ErrorKind, Result};
use std::ops::Range;
use std::panic::{AssertUnwindSafe, catch_unwind, set_hook, take_hook};
use std::pin::pin;
use std::sync::{Arc, Mutex};
use std::task::{Context, Waker};

const KEY: [u8; 16] = [7; 16];

/// A writer, its sink, and what became of its calls so far.
struct Story {
    prefix: Vec<u8>,
    sink: Sink,
    writer: AesGcmFileWrite,
    place: u64,
    steps: Vec<String>,
}

impl Story {
    fn new(what: &str) -> Story {
        let sink = Sink::new(None);
        Story::on(what, &[], sink.clone(), sink)
    }

    /// Of a writer on something that hands all on to this sink.
    fn on(what: &str, prefix: &[u8], sink: Sink, through: impl FileWrite) -> Story {
        getrandom::seed(1);
        Story {
            prefix: prefix.to_vec(),
            sink,
            writer: writer(through, &KEY, prefix),
            place: 0,
            steps: vec![what.to_string()],
        }
    }

    fn next_bytes(&mut self, length: u64) -> Bytes {
        self.place += length;
        plaintext(0, self.place - length..self.place).into()
    }

    fn write(&mut self, length: u64) {
        let bytes = self.next_bytes(length);
        let result = outcome(|| done(self.writer.write(bytes)));
        self.steps.push(format!("write {length} {result}"));
    }

    fn close(&mut self) {
        let result = outcome(|| done(self.writer.close()));
        self.steps.push(format!("close {result}"));
    }

    /// Starts a write, and drops it where the sink lets it wait.
    fn drop_write(&mut self, length: u64) {
        let bytes = self.next_bytes(length);
        start(self.writer.write(bytes));
        self.steps.push(format!("write {length} dropped"));
    }

    /// Starts a close, and drops it where the sink lets it wait.
    fn drop_close(&mut self) {
        start(self.writer.close());
        self.steps.push("close dropped".to_string());
    }

    fn random_numbers_end(&mut self) {
        getrandom::dry();
        self.steps.push("no random numbers".to_string());
    }

    fn random_numbers_again(&mut self) {
        getrandom::seed(2);
        self.steps.push("random numbers again".to_string());
    }

    /// The calls with what came of them, and what the sink took.
    fn told(&self) -> String {
        let steps = self.steps.join("; ");
        let handed = self.sink.handed();
        let writes: Vec<String> = handed.writes.iter().map(usize::to_string).collect();
        format!("{steps}; the sink took {} bytes", writes.join(" + "))
    }

    /// What a read of the whole file answers.
    fn read_back(&self) -> String {
        let bytes = self.sink.handed().bytes.clone();
        let length = bytes.len() as u64;
        match reader(Source(bytes), &KEY, &self.prefix, length) {
            Ok(reader) => read(&reader, 0..reader.plaintext_length()),
            Err(e) => format!("R{}", code(&e)),
        }
    }

    fn tell(&self) {
        println!("{}; a read of all: {}", self.told(), self.read_back());
    }
}

/// Starts a call that waits, and drops it.
fn start<T>(call: impl Future<Output = T>) {
    let waits = pin!(call).poll(&mut Context::from_waker(Waker::noop()));
    assert!(waits.is_pending());
}

/// What a call answers, or nothing where it panics.
fn caught<T>(call: impl FnOnce() -> T) -> Option<T> {
    set_hook(Box::new(|_| {}));
    let answer = catch_unwind(AssertUnwindSafe(call)).ok();
    let _ = take_hook();
    answer
}

/// What comes of a write or a close.
fn outcome(call: impl FnOnce() -> Result<()>) -> String {
    match caught(call) {
        Some(Ok(())) => "ok".to_string(),
        Some(Err(e)) if e.message() == NotClosing::TEXT => "has the sink's error".to_string(),
        Some(Err(e)) => format!("R{}", code(&e)),
        None => "panics".to_string(),
    }
}

/// What comes of a read.
fn read(reader: &AesGcmFileRead, range: Range<u64>) -> String {
    match caught(|| done(reader.read(range))) {
        Some(Ok(bytes)) => format!("{} bytes", bytes.len()),
        Some(Err(e)) => format!("R{}", code(&e)),
        None => "panics".to_string(),
    }
}

/// A sink that takes everything, and whose close is refused.
struct NotClosing(Sink);

impl NotClosing {
    const TEXT: &str = "the sink does not close";
}

#[async_trait::async_trait]
impl FileWrite for NotClosing {
    async fn write(&mut self, bytes: Bytes) -> Result<()> {
        self.0.write(bytes).await
    }

    async fn close(&mut self) -> Result<()> {
        Err(Error::new(ErrorKind::Unexpected, NotClosing::TEXT))
    }
}

/// A sink that takes everything, and lets the caller wait for ever after so many writes.
struct Waiting {
    sink: Sink,
    after: usize,
}

#[async_trait::async_trait]
impl FileWrite for Waiting {
    async fn write(&mut self, bytes: Bytes) -> Result<()> {
        self.sink.write(bytes).await?;
        let taken = self.sink.handed().writes.len();
        if taken == self.after {
            std::future::pending::<()>().await;
        }
        Ok(())
    }

    async fn close(&mut self) -> Result<()> {
        Ok(())
    }
}

/// A source that notes each range that it is asked for, and answers so many bytes fewer or more than it has.
#[derive(Clone)]
struct Odd {
    bytes: Arc<Vec<u8>>,
    fewer: usize,
    more: usize,
    asked: Arc<Mutex<Vec<Range<u64>>>>,
}

#[async_trait::async_trait]
impl FileRead for Odd {
    async fn read(&self, range: Range<u64>) -> Result<Bytes> {
        let bytes = &self.bytes[range.start as usize..range.end as usize];
        let mut answer = bytes[..bytes.len() - self.fewer].to_vec();
        answer.extend(vec![0; self.more]);
        let mut asked = self.asked.lock().expect("no call panics in a source");
        asked.push(range);
        Ok(answer.into())
    }
}

fn long_prefix() {
    let sink = Sink::new(None);
    let what = "an AAD prefix of 65 bytes";
    let mut story = Story::on(what, &[9; 65], sink.clone(), sink);
    story.write(5);
    story.close();
    story.tell();
}

fn without_random_numbers() {
    for length in [B, 2 * B + 3] {
        let mut story = Story::new("a writer");
        story.random_numbers_end();
        story.write(length);
        story.random_numbers_again();
        story.close();
        story.tell();
    }
    for length in [5, B + 5] {
        let mut story = Story::new("a writer");
        story.write(length);
        story.random_numbers_end();
        story.close();
        story.random_numbers_again();
        story.close();
        story.tell();
    }
}

fn refused_close() {
    let sink = Sink::new(None);
    let through = NotClosing(sink.clone());
    let mut story = Story::on("a sink whose close is refused", &[], sink, through);
    story.write(5);
    story.close();
    story.close();
    story.tell();
}

fn dropped_calls() {
    let waiting = |after| {
        let sink = Sink::new(None);
        let through = Waiting {
            sink: sink.clone(),
            after,
        };
        let what = format!("a sink that lets write {after} wait");
        Story::on(&what, &[], sink, through)
    };
    let mut story = waiting(1);
    story.drop_write(5);
    story.write(5);
    story.close();
    story.tell();
    let mut story = waiting(2);
    story.drop_write(B);
    story.close();
    story.tell();
    let mut story = waiting(2);
    story.write(5);
    story.drop_close();
    story.close();
    story.tell();
}

/// Where a writer keeps the number of its next block, which is private: it is the one word of four bytes that goes 1, 2, 3
/// with the blocks.
fn place_of_number() -> usize {
    getrandom::seed(1);
    let mut writer = writer(Sink::new(None), &KEY, &[]);
    let mut places: Vec<usize> = (0..size_of::<AesGcmFileWrite>() / 4).collect();
    for blocks in 1..=3 {
        done(writer.write(plaintext(0, 0..B).into())).expect("the sink takes all");
        let words = (&raw const writer).cast::<u32>();
        // SAFETY: the place lies within the writer.
        places.retain(|place| unsafe { words.add(*place).read_volatile() } == blocks);
    }
    assert_eq!(places.len(), 1);
    places[0]
}

/// A file is full at 4,294,967,295 blocks. That number, and the one below it, are put into the writer itself, since so many
/// blocks are 4 PiB.
fn past_the_last_block() {
    for blocks in [u32::MAX - 1, u32::MAX] {
        let mut story = Story::new(&format!(
            "a writer that is told it has sent {blocks} blocks"
        ));
        story.write(0);
        let words = (&raw mut story.writer).cast::<u32>();
        // SAFETY: the place lies within the writer, and any number may stand there.
        unsafe { words.add(place_of_number()).write_volatile(blocks) };
        story.write(B);
        story.write(0);
        story.write(3);
        story.close();
        story.close();
        println!("{}", story.told());
    }
}

/// A file of three blocks, and its plaintext length.
fn three_blocks() -> (Vec<u8>, u64) {
    getrandom::seed(1);
    let length = 3 * B - 1;
    let sink = Sink::new(None);
    let mut writer = writer(sink.clone(), &KEY, &[]);
    done(writer.write(plaintext(0, 0..length).into())).expect("the sink takes all");
    done(writer.close()).expect("the sink takes all");
    let bytes = sink.handed().bytes.clone();
    (bytes, length)
}

fn damaged_and_short() {
    let (mut bytes, n) = three_blocks();
    let length = bytes.len() as u64;
    bytes.pop();
    bytes[(H + C) as usize] ^= 1;
    let reader = reader(Source(bytes), &KEY, &[], length).expect("a file");
    let answers = [0..n, B..2 * B, 2 * B..n].map(|range| {
        let Range { start, end } = range;
        format!("a read of {start}..{end}: {}", read(&reader, start..end))
    });
    let answers = answers.join("; ");
    println!("block 1 of 3 changed, the source a byte short; {answers}");
}

fn odd_sources() {
    let (bytes, n) = three_blocks();
    let length = bytes.len() as u64;
    let source = Odd {
        bytes: Arc::new(bytes),
        fewer: 0,
        more: 0,
        asked: Arc::default(),
    };
    let answer = |source: Odd, range| {
        let reader = reader(source, &KEY, &[], length).expect("a file");
        read(&reader, range)
    };
    let (start, end) = (B - 1, 2 * B + 1);
    let answered = answer(source.clone(), start..end);
    let asked = source
        .asked
        .lock()
        .expect("no call panics in a source")
        .clone();
    println!("a read of {start}..{end}: {answered}; the source is asked for {asked:?}");
    for fewer in [1, 28, C as usize, (length - H) as usize] {
        let answered = answer(
            Odd {
                fewer,
                ..source.clone()
            },
            0..n,
        );
        println!(
            "a source that answers {fewer} bytes fewer than asked; a read of 0..{n}: {answered}"
        );
    }
    let answered = answer(Odd { more: 5, ..source }, 0..n);
    println!("a source that answers 5 bytes more than asked; a read of 0..{n}: {answered}");
}

fn main() {
    long_prefix();
    without_random_numbers();
    refused_close();
    dropped_calls();
    past_the_last_block();
    damaged_and_short();
    odd_sources();
}
