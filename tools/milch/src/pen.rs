//! Writes a line into a buffer that is long enough. Short texts are copied with a
//! known length, which is quicker than one of their own.

/// A text of at most N bytes.
#[derive(Clone, Copy)]
pub struct Short<const N: usize> {
    bytes: [u8; N],
    length: usize,
}

impl<const N: usize> Short<N> {
    /// The text, if it is short enough.
    pub fn of(text: &str) -> Option<Short<N>> {
        let (mut bytes, length) = ([0; N], text.len());
        bytes.get_mut(..length)?.copy_from_slice(text.as_bytes());
        Some(Short { bytes, length })
    }
}

/// So many bytes have to be free behind what is written: the rest of a short text.
pub const SPARE: usize = 32;

pub struct Pen<'a> {
    to: &'a mut [u8],
    at: usize,
}

impl<'a> Pen<'a> {
    pub fn new(to: &'a mut [u8]) -> Pen<'a> {
        Pen { to, at: 0 }
    }

    /// Adds a text of known length.
    #[inline(always)]
    pub fn put<const N: usize>(&mut self, text: &[u8; N]) {
        self.to[self.at..self.at + N].copy_from_slice(text);
        self.at += N;
    }

    #[inline(always)]
    pub fn short<const N: usize>(&mut self, text: &Short<N>) {
        self.to[self.at..self.at + N].copy_from_slice(&text.bytes);
        self.at += text.length;
    }

    /// Adds a text of any length.
    pub fn long(&mut self, text: &str) {
        self.to[self.at..self.at + text.len()].copy_from_slice(text.as_bytes());
        self.at += text.len();
    }

    /// Adds a byte in base ten.
    #[inline(always)]
    pub fn byte(&mut self, byte: u8) {
        let decimal = &DECIMALS[usize::from(byte)];
        self.short(decimal);
    }

    /// Adds a number in base ten behind spaces, so that both are this wide, 20 at
    /// most.
    #[inline(always)]
    pub fn number(&mut self, number: u64, width: usize) {
        let (mut text, mut first, mut left) = ([b' '; 20], 20, number);
        loop {
            first -= 1;
            text[first] = b'0' + (left % 10) as u8;
            left /= 10;
            if left == 0 {
                break;
            }
        }
        let from = first.min(20 - width);
        let room = &mut self.to[self.at..self.at + 20];
        room.copy_from_slice(&text);
        room.copy_within(from.., 0);
        self.at += 20 - from;
    }

    /// Adds spaces up to so many bytes behind a place, 32 at most.
    #[inline(always)]
    pub fn pad(&mut self, from: usize, width: usize) {
        self.to[self.at..self.at + 32].copy_from_slice(&[b' '; 32]);
        self.at = self.at.max(from + width);
    }

    /// Takes the last byte back.
    #[inline(always)]
    pub fn back(&mut self) {
        self.at -= 1;
    }

    /// How much is written.
    #[inline(always)]
    pub fn at(&self) -> usize {
        self.at
    }
}

/// The bytes in base ten.
static DECIMALS: [Short<4>; 256] = {
    let mut all = [decimal(0); 256];
    let mut number = 0;
    while number < all.len() {
        all[number] = decimal(number as u8);
        number += 1;
    }
    all
};

const fn decimal(number: u8) -> Short<4> {
    let digits = [
        b'0' + number / 100,
        b'0' + number / 10 % 10,
        b'0' + number % 10,
    ];
    let (bytes, length) = match number {
        0..=9 => ([digits[2], 0, 0, 0], 1),
        10..=99 => ([digits[1], digits[2], 0, 0], 2),
        _ => ([digits[0], digits[1], digits[2], 0], 3),
    };
    Short { bytes, length }
}
