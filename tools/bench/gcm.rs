//! The same algorithms in Rust as the program bench: AES with one table of 1 KiB and rotations, the keystream laid over the text in place, GHASH bit by
//! bit. `gcm time` prints for each kernel what was computed and the microseconds that it took.
use std::time::Instant;

const fn times_x(b: u8) -> u8 {
    (b << 1) ^ ((b >> 7) * 0x1b)
}

const fn sbox() -> [u8; 256] {
    let mut s = [0u8; 256];
    let (mut p, mut q) = (1u8, 1u8);
    loop {
        p ^= times_x(p);
        q ^= q << 1;
        q ^= q << 2;
        q ^= q << 4;
        if q & 0x80 != 0 {
            q ^= 0x09;
        }
        s[p as usize] = q ^ q.rotate_left(1) ^ q.rotate_left(2) ^ q.rotate_left(3) ^ q.rotate_left(4) ^ 0x63;
        if p == 1 {
            break;
        }
    }
    s[0] = 0x63;
    s
}

const fn mixed() -> [u32; 256] {
    let mut t = [0; 256];
    let mut i = 0;
    while i < 256 {
        let s = SBOX[i];
        t[i] = u32::from_be_bytes([times_x(s), s, s, s ^ times_x(s)]);
        i += 1;
    }
    t
}

const SBOX: [u8; 256] = sbox();
static SUB: [u8; 256] = SBOX;
static MIXED: [u32; 256] = mixed();

#[derive(Clone, Copy, Default)]
struct Block([u32; 4]);

struct Schedule {
    keys: [Block; 15],
    nk: usize,
}

fn sub_word(w: u32) -> u32 {
    u32::from_be_bytes(w.to_be_bytes().map(|b| SUB[b as usize]))
}

fn column(a: u32, b: u32, c: u32, d: u32, key: u32) -> u32 {
    MIXED[(a >> 24) as usize]
        ^ MIXED[(b >> 16 & 255) as usize].rotate_right(8)
        ^ MIXED[(c >> 8 & 255) as usize].rotate_right(16)
        ^ MIXED[(d & 255) as usize].rotate_right(24)
        ^ key
}

fn last_column(a: u32, b: u32, c: u32, d: u32, key: u32) -> u32 {
    u32::from_be_bytes([SUB[(a >> 24) as usize], SUB[(b >> 16 & 255) as usize], SUB[(c >> 8 & 255) as usize], SUB[(d & 255) as usize]]) ^ key
}

fn round(f: fn(u32, u32, u32, u32, u32) -> u32, s: Block, k: Block) -> Block {
    let ([a, b, c, d], k) = (s.0, k.0);
    Block([f(a, b, c, d, k[0]), f(b, c, d, a, k[1]), f(c, d, a, b, k[2]), f(d, a, b, c, k[3])])
}

impl Schedule {
    fn new(key: &[u8]) -> Self {
        let nk = key.len() / 4;
        let mut w = [0u32; 60];
        for i in 0..nk {
            w[i] = u32::from_be_bytes(key[4 * i..4 * i + 4].try_into().unwrap());
        }
        let mut power = 1u8;
        for i in nk..4 * (nk + 7) {
            let mut t = w[i - 1];
            if i % nk == 0 {
                t = sub_word(t.rotate_left(8)) ^ (power as u32) << 24;
                power = times_x(power);
            } else if nk > 6 && i % nk == 4 {
                t = sub_word(t);
            }
            w[i] = w[i - nk] ^ t;
        }
        let mut keys = [Block::default(); 15];
        for r in 0..15 {
            keys[r] = Block(w[4 * r..4 * r + 4].try_into().unwrap());
        }
        Schedule { keys, nk }
    }

    fn encrypt(&self, x: Block) -> Block {
        let mut s = x;
        for i in 0..4 {
            s.0[i] ^= self.keys[0].0[i];
        }
        for key in &self.keys[1..self.nk + 6] {
            s = round(column, s, *key);
        }
        round(last_column, s, self.keys[self.nk + 6])
    }
}

fn keystream(schedule: &Schedule, iv: [u32; 3], counter: u32) -> [u8; 16] {
    let Block(w) = schedule.encrypt(Block([iv[0], iv[1], iv[2], counter]));
    let mut out = [0u8; 16];
    for i in 0..4 {
        out[4 * i..4 * i + 4].copy_from_slice(&w[i].to_be_bytes());
    }
    out
}

fn gctr(schedule: &Schedule, iv: [u32; 3], counter: u32, text: &mut [u8]) {
    let mut count = counter;
    for part in text.chunks_mut(16) {
        let block = keystream(schedule, iv, count);
        for (t, k) in part.iter_mut().zip(block) {
            *t ^= k;
        }
        count = count.wrapping_add(1);
    }
}

fn half(v: u128) -> u128 {
    if v % 2 == 1 { v / 2 ^ 0xe1 << 120 } else { v / 2 }
}

fn product(x: u128, y: u128) -> u128 {
    let (mut z, mut v, mut bits) = (0u128, y, x);
    for _ in 0..128 {
        if bits >> 127 == 1 {
            z ^= v;
        }
        bits <<= 1;
        v = half(v);
    }
    z
}

fn ghash(h: u128, y: u128, s: &[u8]) -> u128 {
    let mut sum = y;
    let blocks = s.chunks_exact(16);
    let rest = blocks.remainder();
    for block in blocks {
        sum = product(sum ^ u128::from_be_bytes(block.try_into().unwrap()), h);
    }
    if !rest.is_empty() {
        let mut block = [0u8; 16];
        block[..rest.len()].copy_from_slice(rest);
        sum = product(sum ^ u128::from_be_bytes(block), h);
    }
    sum
}

fn seal(key: &[u8], nonce: [u8; 12], aad: &[u8], text: &mut [u8]) -> [u8; 16] {
    let schedule = Schedule::new(key);
    let word = |i: usize| u32::from_be_bytes(nonce[i..i + 4].try_into().unwrap());
    let iv = [word(0), word(4), word(8)];
    gctr(&schedule, iv, 2, text);
    let Block(z) = schedule.encrypt(Block::default());
    let h = z.iter().fold(0u128, |n, w| n << 32 | *w as u128);
    let lengths = (aad.len() as u128 * 8) << 64 | text.len() as u128 * 8;
    let sum = product(ghash(h, ghash(h, 0, aad), text) ^ lengths, h);
    (sum ^ u128::from_be_bytes(keystream(&schedule, iv, 1))).to_be_bytes()
}

fn last(bytes: &[u8]) -> u64 {
    bytes.iter().rev().take(8).fold(0u64, |n, b| n << 8 | *b as u64)
}

fn fill(text: &mut [u8], seed: u8) {
    let mut k = seed;
    for b in text {
        *b = k;
        k = k.wrapping_mul(5).wrapping_add(31);
    }
}

fn measure(name: &str, mut kernel: impl FnMut(u8, &mut [u8]) -> u64) {
    let mut text = vec![0u8; 1_048_576];
    let (mut sum, mut micros) = (0u64, 0u128);
    for seed in 0..16u8 {
        fill(&mut text, seed);
        let start = Instant::now();
        let out = kernel(seed, &mut text);
        micros += start.elapsed().as_micros();
        sum = sum.wrapping_mul(31).wrapping_add(out);
    }
    println!("{name} {sum:016x} {micros}");
}

fn main() {
    let key: Vec<u8> = (0..16).collect();
    measure("ctr", |_, text| {
        gctr(&Schedule::new(&key), [0; 3], 2, text);
        last(text)
    });
    measure("ghash", |_, text| last(&ghash(0x66e94bd4ef8a2c3b884cfa59ca342b2e, 0, text).to_be_bytes()));
    measure("gcm", |seed, text| {
        let mut nonce = [0u8; 12];
        nonce[11] = seed;
        last(&seal(&key, nonce, &[7; 20], text))
    });
}
