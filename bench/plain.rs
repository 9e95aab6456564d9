//! Sealing and opening frames in plain Rust, written from docs/FORMAT.md alone: what the proved code is compared with.

/// A kind of stick: its field and its column set.
pub trait Kind {
    /// The bits of a block.
    const WIDTH: u32;
    /// The bits of the sum.
    const SUM_BITS: u32;
    /// The column of each bit of the salt.
    const COLUMNS: &'static [u32];

    fn multiply(x: u32, y: u32) -> u32;
}

/// Width 7, z^7 + z^3 + 1, with the table of columns.
pub struct Seven;

/// Width 17, z^17 + z^3 + 1, with the columns by rule.
pub struct Seventeen;

/// The powers of z in the field of width 7, and at which power each element stands.
const POWERS: [u8; 254] = {
    let mut powers = [1u8; 254];
    let mut i = 1;
    while i < 254 {
        let next = (powers[i - 1] as u32) << 1;
        powers[i] = if next & 0x80 != 0 { next ^ 0x89 } else { next } as u8;
        i += 1;
    }
    powers
};

const LOGARITHMS: [u8; 128] = {
    let mut logarithms = [0u8; 128];
    let mut i = 0;
    while i < 127 {
        logarithms[POWERS[i] as usize] = i as u8;
        i += 1;
    }
    logarithms
};

impl Kind for Seven {
    const WIDTH: u32 = 7;
    const SUM_BITS: u32 = 4;
    const COLUMNS: &'static [u32] = &[12, 6, 14, 9, 5, 13, 3];

    #[inline]
    fn multiply(x: u32, y: u32) -> u32 {
        if x == 0 || y == 0 {
            return 0;
        }
        POWERS[LOGARITHMS[x as usize] as usize + LOGARITHMS[y as usize] as usize] as u32
    }
}

impl Kind for Seventeen {
    const WIDTH: u32 = 17;
    const SUM_BITS: u32 = 5;
    const COLUMNS: &'static [u32] = &[
        3, 5, 6, 7, 9, 10, 11, 12, 13, 14, 15, 17, 18, 19, 20, 21, 22,
    ];

    #[inline]
    fn multiply(x: u32, y: u32) -> u32 {
        let mut product = 0u64;
        for i in 0..17 {
            // x shifted by i where digit i of y is set, with no branch
            product ^= x as u64 * (y & 1 << i) as u64;
        }
        // z^17 = z^3 + 1: 33 bits fold to 19, and 19 to 17
        for _ in 0..2 {
            let high = product >> 17;
            product = product & 0x1ffff ^ high ^ high << 3;
        }
        product as u32
    }
}

#[derive(Clone, Copy, PartialEq, Eq, Debug)]
pub enum Part {
    Block(u32, u32),
    Mask(u32),
    Sum(u32),
    Parity,
}

#[derive(Clone, Copy, PartialEq, Eq, Debug)]
pub enum Verdict {
    Clean,
    Mended(Part),
}

/// Reads bits in order, the lowest of each byte first.
struct Reader<'a> {
    bytes: std::slice::Iter<'a, u8>,
    held: u64,
    count: u32,
}

impl<'a> Reader<'a> {
    fn new(bytes: &'a [u8]) -> Self {
        Reader {
            bytes: bytes.iter(),
            held: 0,
            count: 0,
        }
    }

    #[inline]
    fn take(&mut self, width: u32) -> u32 {
        while self.count < width {
            self.held |= (*self.bytes.next().unwrap_or(&0) as u64) << self.count;
            self.count += 8;
        }
        let value = self.held & ((1 << width) - 1);
        self.held >>= width;
        self.count -= width;
        value as u32
    }
}

/// Writes bits in order, the lowest of each byte first.
struct Writer<'a> {
    bytes: std::slice::IterMut<'a, u8>,
    held: u64,
    count: u32,
}

impl<'a> Writer<'a> {
    fn new(bytes: &'a mut [u8]) -> Self {
        Writer {
            bytes: bytes.iter_mut(),
            held: 0,
            count: 0,
        }
    }

    #[inline]
    fn put(&mut self, width: u32, value: u32) {
        self.held |= (value as u64) << self.count;
        self.count += width;
        while self.count >= 8 {
            if let Some(byte) = self.bytes.next() {
                *byte = self.held as u8;
            }
            self.held >>= 8;
            self.count -= 8;
        }
    }

    fn finish(self) {
        if let Some(byte) = self.bytes.into_iter().next() {
            *byte = self.held as u8;
        }
    }
}

fn frame_len<K: Kind>(b: usize) -> usize {
    ((b + 2) * K::WIDTH as usize + K::SUM_BITS as usize + 1).div_ceil(8)
}

/// Whether the powers of a salt, as many as there are blocks, are nonzero and all different.
#[inline]
fn admitted<K: Kind>(salt: u32, b: usize) -> bool {
    if salt == 0 || salt >> K::WIDTH != 0 {
        return false;
    }
    let mut power = salt;
    for _ in 1..b {
        if power == 1 {
            return false;
        }
        power = K::multiply(salt, power);
    }
    true
}

#[inline]
fn column_sum<K: Kind>(salt: u32) -> u32 {
    let mut sum = 0;
    for (t, column) in K::COLUMNS.iter().enumerate() {
        if salt >> t & 1 == 1 {
            sum ^= column;
        }
    }
    sum
}

/// y_1 a + y_2 a^2 + … + y_b a^b + a^(w + 1), by Horner's rule.
#[inline]
fn check_value<K: Kind>(word: &[u32], a: u32) -> u32 {
    let square = K::multiply(a, a);
    let mut value = if word.len() % 2 == 1 {
        square
    } else {
        K::multiply(square, a)
    };
    for y in word.iter().rev() {
        value = K::multiply(value ^ y, a);
    }
    value
}

/// Draws the first admitted salt for b blocks; `used` bytes of the noise are used up then.
fn draw<K: Kind>(noise: &[u8], b: usize, used: &mut usize) -> Result<u32, u8> {
    if b < 1 || b > 16 {
        return Err(2);
    }
    let size = K::WIDTH.div_ceil(8) as usize;
    for (k, group) in noise.chunks_exact(size).enumerate() {
        let mut candidate = 0;
        for byte in group.iter().rev() {
            candidate = candidate << 8 | *byte as u32;
        }
        candidate &= (1 << K::WIDTH) - 1;
        if admitted::<K>(candidate, b) {
            *used = (k + 1) * size;
            return Ok(candidate);
        }
    }
    Err(10)
}

/// Seals a word with a salt.
fn seal_with<K: Kind>(word: &[u32], salt: u32, frame: &mut [u8]) -> Result<(), u8> {
    let b = word.len();
    if b < 1 || b > 16 || frame.len() != frame_len::<K>(b) {
        return Err(2);
    }
    if word.iter().any(|y| y >> K::WIDTH != 0) {
        return Err(3);
    }
    if !admitted::<K>(salt, b) {
        return Err(4);
    }
    let mask = word.iter().fold(salt, |all, y| all ^ y);
    let sum = column_sum::<K>(salt);
    let check = check_value::<K>(word, salt);
    let ones: u32 = word.iter().map(|y| y.count_ones()).sum();
    let parity = (ones + mask.count_ones() + sum.count_ones() + check.count_ones()) & 1;
    let mut writer = Writer::new(frame);
    for y in word {
        writer.put(K::WIDTH, *y);
    }
    writer.put(K::WIDTH, mask);
    writer.put(K::SUM_BITS, sum);
    writer.put(K::WIDTH, check);
    writer.put(1, parity);
    writer.finish();
    Ok(())
}

/// Draws a salt from the noise and seals a word with it; the noise bytes that are used up go to `used`.
pub fn seal<K: Kind>(
    word: &[u32],
    noise: &[u8],
    used: &mut usize,
    frame: &mut [u8],
) -> Result<(), u8> {
    *used = 0;
    let salt = draw::<K>(noise, word.len(), used)?;
    seal_with::<K>(word, salt, frame)
}

/// Opens a frame into a word, and answers the verdict and the salt.
pub fn open<K: Kind>(frame: &[u8], word: &mut [u32]) -> Result<(Verdict, u32), u8> {
    let b = word.len();
    if b < 1 || b > 16 || frame.len() != frame_len::<K>(b) {
        return Err(2);
    }
    let mut reader = Reader::new(frame);
    let mut room = [0u32; 16];
    let stored = &mut room[..b];
    for y in stored.iter_mut() {
        *y = reader.take(K::WIDTH);
    }
    let mask = reader.take(K::WIDTH);
    let sum = reader.take(K::SUM_BITS);
    let check = reader.take(K::WIDTH);
    let parity = reader.take(1);
    let ones: u32 = stored.iter().map(|y| y.count_ones()).sum();
    let ones = ones + mask.count_ones() + sum.count_ones() + check.count_ones() + parity;
    let raw = stored.iter().fold(mask, |all, y| all ^ y);
    let gap = column_sum::<K>(raw) ^ sum;
    let (verdict, salt) = if ones % 2 == 0 {
        (even::<K>(stored, raw, check, gap)?, raw)
    } else {
        odd::<K>(stored, raw, check, gap)?
    };
    word.copy_from_slice(stored);
    Ok((verdict, salt))
}

fn even<K: Kind>(stored: &[u32], salt: u32, check: u32, gap: u32) -> Result<Verdict, u8> {
    if gap != 0 {
        return Err(6);
    }
    if !admitted::<K>(salt, stored.len()) {
        return Err(5);
    }
    if check_value::<K>(stored, salt) != check {
        return Err(6);
    }
    Ok(Verdict::Clean)
}

fn odd<K: Kind>(stored: &mut [u32], raw: u32, check: u32, gap: u32) -> Result<(Verdict, u32), u8> {
    let hit = K::COLUMNS.iter().position(|column| *column == gap);
    if hit.is_none() && gap != 0 && !gap.is_power_of_two() {
        return Err(7);
    }
    let salt = match hit {
        Some(t) => raw ^ 1 << t,
        None => raw,
    };
    if !admitted::<K>(salt, stored.len()) {
        return Err(5);
    }
    let change = check_value::<K>(stored, salt) ^ check;
    let part = match hit {
        None if change != 0 => return Err(8),
        None if gap == 0 => Part::Parity,
        None => Part::Sum(gap.trailing_zeros()),
        Some(t) if change == 0 => Part::Mask(t as u32),
        Some(t) => {
            let mut term = 1 << t;
            let found = stored.iter().position(|_| {
                term = K::multiply(term, salt);
                term == change
            });
            let j = found.ok_or(8)?;
            stored[j] ^= 1 << t;
            Part::Block(j as u32 + 1, t as u32)
        }
    };
    Ok((Verdict::Mended(part), salt))
}
