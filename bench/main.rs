//! Compares the proved sealing and opening with plain Rust on random frames, then times both on the same frames.

mod plain;

use plain::{Kind, Part, Seven, Seventeen, Verdict};
use std::hint::black_box;
use std::time::Instant;

/// What the functions for C answer: see docs/FORMAT.md.
#[repr(C)]
#[derive(Clone, Copy, PartialEq, Eq, Debug)]
struct Sealed {
    refusal: u8,
    used: usize,
}

#[repr(C)]
#[derive(Clone, Copy, PartialEq, Eq, Debug)]
struct Opened {
    refusal: u8,
    part: u8,
    block: u32,
    bit: u32,
    salt: u32,
}

type Seal = unsafe extern "C" fn(*const u32, usize, *const u8, usize, *mut u8, usize) -> Sealed;
type Open = unsafe extern "C" fn(*const u8, usize, *mut u32, usize) -> Opened;

// A slice crosses as a pointer and a length.
unsafe extern "C" {
    #[rustfmt::skip]
    fn lekhundra_seal_7(
        word: *const u32,
        blocks: usize,
        noise: *const u8,
        more: usize,
        frame: *mut u8,
        bytes: usize,
    ) -> Sealed;
    #[rustfmt::skip]
    fn lekhundra_seal_17(
        word: *const u32,
        blocks: usize,
        noise: *const u8,
        more: usize,
        frame: *mut u8,
        bytes: usize,
    ) -> Sealed;
    fn lekhundra_open_7(frame: *const u8, bytes: usize, word: *mut u32, blocks: usize) -> Opened;
    fn lekhundra_open_17(frame: *const u8, bytes: usize, word: *mut u32, blocks: usize) -> Opened;
}

/// A kind of stick, with the proved functions for it.
trait Proved: Kind {
    const SEAL: Seal;
    const OPEN: Open;
}

impl Proved for Seven {
    const SEAL: Seal = lekhundra_seal_7;
    const OPEN: Open = lekhundra_open_7;
}

impl Proved for Seventeen {
    const SEAL: Seal = lekhundra_seal_17;
    const OPEN: Open = lekhundra_open_17;
}

fn proved_seal<K: Proved>(word: &[u32], noise: &[u8], frame: &mut [u8]) -> Sealed {
    let (w, n, f) = (word.as_ptr(), noise.as_ptr(), frame.as_mut_ptr());
    // each pointer has its own slice's length beside it
    unsafe { K::SEAL(w, word.len(), n, noise.len(), f, frame.len()) }
}

fn proved_open<K: Proved>(frame: &[u8], word: &mut [u32]) -> Opened {
    // each pointer has its own slice's length beside it
    unsafe { K::OPEN(frame.as_ptr(), frame.len(), word.as_mut_ptr(), word.len()) }
}

#[inline(never)]
fn plain_seal<K: Kind>(word: &[u32], noise: &[u8], frame: &mut [u8]) -> Sealed {
    let mut used = 0;
    let sealed = plain::seal::<K>(word, noise, &mut used, frame);
    Sealed {
        refusal: sealed.err().unwrap_or(0),
        used,
    }
}

#[inline(never)]
fn plain_open<K: Kind>(frame: &[u8], word: &mut [u32]) -> Opened {
    let (refusal, verdict, salt) = match plain::open::<K>(frame, word) {
        Ok((verdict, salt)) => (0, verdict, salt),
        Err(refusal) => (refusal, Verdict::Clean, 0),
    };
    let (part, block, bit) = match verdict {
        Verdict::Clean => (0, 0, 0),
        Verdict::Mended(Part::Block(j, t)) => (1, j, t),
        Verdict::Mended(Part::Mask(t)) => (2, 0, t),
        Verdict::Mended(Part::Sum(t)) => (3, 0, t),
        Verdict::Mended(Part::Parity) => (4, 0, 0),
    };
    Opened {
        refusal,
        part,
        block,
        bit,
        salt,
    }
}

/// Random numbers, the same in every run.
struct Random(u64);

impl Random {
    fn next(&mut self) -> u64 {
        self.0 ^= self.0 << 13;
        self.0 ^= self.0 >> 7;
        self.0 ^= self.0 << 17;
        self.0.wrapping_mul(0x2545_f491_4f6c_dd1d) >> 16
    }

    fn below(&mut self, n: usize) -> usize {
        (self.next() % n as u64) as usize
    }

    fn bytes(&mut self, n: usize) -> Vec<u8> {
        (0..n).map(|_| self.next() as u8).collect()
    }

    fn word<K: Kind>(&mut self, b: usize) -> Vec<u32> {
        (0..b).map(|_| self.below(1 << K::WIDTH) as u32).collect()
    }
}

fn bits<K: Kind>(b: usize) -> usize {
    (b + 2) * K::WIDTH as usize + K::SUM_BITS as usize + 1
}

fn flip(frame: &mut [u8], k: usize) {
    frame[k / 8] ^= 1 << (k % 8);
}

/// Both seal, and agree on the answer and on every byte of the row.
fn agreed_seal<K: Proved>(word: &[u32], noise: &[u8], length: usize) -> (Sealed, Vec<u8>) {
    let mut ours = vec![0xa5; length];
    let mut theirs = ours.clone();
    let answer = proved_seal::<K>(word, noise, &mut ours);
    let other = plain_seal::<K>(word, noise, &mut theirs);
    assert_eq!((answer, &ours), (other, &theirs), "{word:?} {noise:?}");
    (answer, ours)
}

/// Both open, and agree on the answer and on every block of the row.
fn agreed_open<K: Proved>(frame: &[u8], places: usize) -> (Opened, Vec<u32>) {
    let mut ours = vec![0xdead_beef; places];
    let mut theirs = ours.clone();
    let answer = proved_open::<K>(frame, &mut ours);
    let other = plain_open::<K>(frame, &mut theirs);
    assert_eq!((answer, &ours), (other, &theirs), "{frame:02x?}");
    (answer, ours)
}

/// A random word and its frame.
fn sealed<K: Proved>(random: &mut Random, b: usize) -> (Vec<u32>, Vec<u8>) {
    let word = random.word::<K>(b);
    let noise = random.bytes(30);
    let (answer, frame) = agreed_seal::<K>(&word, &noise, bits::<K>(b).div_ceil(8));
    assert_eq!(answer.refusal, 0);
    (word, frame)
}

/// Seals and opens what must be refused for its size, a block or its noise.
fn compare_refusals<K: Proved>(random: &mut Random, seen: &mut [u64; 11]) {
    let length = random.below(42);
    let places = random.below(19);
    let frame = random.bytes(length);
    seen[agreed_open::<K>(&frame, places).0.refusal as usize] += 1;
    let blocks = random.below(19);
    let mut word = random.word::<K>(blocks);
    if let Some(y) = word.last_mut() {
        *y += (random.below(2) as u32) << K::WIDTH;
    }
    let noise: Vec<u8> = (0..random.below(8))
        .map(|_| random.below(3) as u8)
        .collect();
    let bytes = bits::<K>(blocks).div_ceil(8) + random.below(8) / 7;
    seen[agreed_seal::<K>(&word, &noise, bytes).0.refusal as usize] += 1;
}

/// Compares both at one width, and counts the answers by their number.
fn compare<K: Proved>(random: &mut Random, rounds: usize) {
    let mut seen = [0; 11];
    for _ in 0..rounds {
        let b = 1 + random.below(16);
        let (word, mut frame) = sealed::<K>(random, b);
        let (clean, opened) = agreed_open::<K>(&frame, b);
        assert!(clean.refusal == 0 && clean.part == 0 && opened == word);
        // one flip, two, three; two of them may be one bit
        for _ in 0..3 {
            flip(&mut frame, random.below(bits::<K>(b)));
            seen[agreed_open::<K>(&frame, b).0.refusal as usize] += 1;
        }
        let any = random.bytes(frame.len());
        seen[agreed_open::<K>(&any, b).0.refusal as usize] += 1;
        // hardly a bit set: salts 0 and 1
        let sparse: Vec<u8> = any.iter().map(|x| (x % 40 == 0) as u8).collect();
        seen[agreed_open::<K>(&sparse, b).0.refusal as usize] += 1;
        compare_refusals::<K>(random, &mut seen);
    }
    println!(
        "width {}: {rounds} words sealed and opened clean; of {} other frames and words",
        K::WIDTH,
        7 * rounds
    );
    println!(
        "  answered 0: {}, and by refusals 2 to 10: {:?}; all answers equal",
        seen[0],
        &seen[2..]
    );
}

struct Sample {
    word: Vec<u32>,
    noise: Vec<u8>,
    frame: Vec<u8>,
}

/// Frames of random words; mended ones have one flipped bit outside the check block.
fn samples<K: Proved>(random: &mut Random, b: usize, mended: bool) -> Vec<Sample> {
    let mut all = Vec::new();
    while all.len() < 4096 {
        let (word, mut frame) = sealed::<K>(random, b);
        if mended {
            flip(&mut frame, random.below(bits::<K>(b)));
        }
        if agreed_open::<K>(&frame, b).0.refusal == 0 {
            let noise = random.bytes(30);
            all.push(Sample { word, noise, frame });
        }
    }
    all
}

/// The time of one call in nanoseconds, over all samples.
fn once(samples: &mut [Sample], call: &impl Fn(&mut Sample)) -> f64 {
    let start = Instant::now();
    samples.iter_mut().for_each(call);
    start.elapsed().as_nanos() as f64 / samples.len() as f64
}

/// Times both by turns, and prints the best time of each.
fn time(
    what: &str,
    samples: &mut [Sample],
    ours: impl Fn(&mut Sample),
    plain: impl Fn(&mut Sample),
) {
    let mut best = [f64::MAX; 2];
    for _ in 0..60 {
        best[0] = best[0].min(once(samples, &ours));
        best[1] = best[1].min(once(samples, &plain));
    }
    println!(
        "{what:<30} {:>7.1} {:>7.1} {:>6.2}",
        best[0],
        best[1],
        best[0] / best[1]
    );
}

fn measure<K: Proved>(random: &mut Random, b: usize) {
    let seal = |f: fn(&[u32], &[u8], &mut [u8]) -> Sealed| {
        move |s: &mut Sample| {
            black_box(f(black_box(&s.word), &s.noise, &mut s.frame));
        }
    };
    let open = |f: fn(&[u8], &mut [u32]) -> Opened| {
        move |s: &mut Sample| {
            black_box(f(black_box(&s.frame), &mut s.word));
        }
    };
    let name = format!("width {}, b = {b}:", K::WIDTH);
    let (ours, plain) = (open(proved_open::<K>), open(plain_open::<K>));
    let mut clean = samples::<K>(random, b, false);
    let mut mended = samples::<K>(random, b, true);
    time(&format!("{name} clean open"), &mut clean, ours, plain);
    time(&format!("{name} mended open"), &mut mended, ours, plain);
    let (ours, plain) = (seal(proved_seal::<K>), seal(plain_seal::<K>));
    time(&format!("{name} seal"), &mut clean, ours, plain);
}

fn main() {
    let mut random = Random(0x9e37_79b9_7f4a_7c15);
    compare::<Seven>(&mut random, 20_000);
    compare::<Seventeen>(&mut random, 20_000);
    println!(
        "\n{:<30} {:>7} {:>7} {:>6}",
        "nanoseconds", "proved", "plain", "ratio"
    );
    for b in [1, 4, 8, 16] {
        measure::<Seventeen>(&mut random, b);
    }
    measure::<Seven>(&mut random, 2);
}
