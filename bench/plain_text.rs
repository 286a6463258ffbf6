//! The listing of a pattern as one writes it in safe Rust into a lent buffer, without formatting macros: one pass by machine words, the
//! digits of a byte off a table of 256 pairs or, as the engine reads them, off a list of sixteen. It finds each group once and keeps it until the
//! next one is found, with which its word is compared, and panics where the buffer is short.
#![forbid(unsafe_code)]
use crate::order::{Order, Ranks};
use crate::plain_compare::shared_by_chunks;
use crate::plain_words::groups;

const HEADER: &[u8] = b"start,length,power,word,shared\r\n";

const DIGITS: &[u8; 16] = b"0123456789ABCDEF";

/// The two digits of each byte.
const PAIRS: [[u8; 2]; 256] = {
    let (mut pairs, mut b) = ([[0; 2]; 256], 0);
    while b < 256 {
        pairs[b] = [DIGITS[b / 16], DIGITS[b % 16]];
        b += 1;
    }
    pairs
};

/// How many digits a number has in decimal.
pub fn digits(n: usize) -> usize {
    n.checked_ilog10().map_or(1, |log| log as usize + 1)
}

/// The front of a buffer that was written, up to a place.
struct Writer<'a> {
    text: &'a mut [u8],
    at: usize,
}

impl Writer<'_> {
    fn next(&mut self, size: usize) -> &mut [u8] {
        let from = self.at;
        self.at += size;
        &mut self.text[from..self.at]
    }

    fn bytes(&mut self, bytes: &[u8]) {
        self.next(bytes.len()).copy_from_slice(bytes);
    }

    /// A number in decimal.
    fn number(&mut self, mut n: usize) {
        for digit in self.next(digits(n)).iter_mut().rev() {
            *digit = b'0' + (n % 10) as u8;
            n /= 10;
        }
    }

    fn field(&mut self, n: usize) {
        self.number(n);
        self.bytes(b",");
    }

    #[inline(always)]
    fn hexadecimal(&mut self, word: &[u8], digits: impl Fn(u8) -> [u8; 2]) {
        let (pairs, _) = self.next(2 * word.len()).as_chunks_mut();
        for (pair, &b) in pairs.iter_mut().zip(word) {
            *pair = digits(b);
        }
    }
}

/// The numbers of each line: start, length, power, shared.
fn lines<O: Order>(s: &[u8], ranks: &Ranks) -> impl Iterator<Item = [usize; 4]> {
    let mut groups = groups::<O>(s, ranks).peekable();
    std::iter::from_fn(move || {
        let (start, length, power) = groups.next()?;
        let common = |&(next, size, _): &(usize, usize, usize)| shared_by_chunks(&s[start..start + length], &s[next..next + size]);
        Some([start, length, power, groups.peek().map_or(0, common)])
    })
}

/// Writes the listing and answers its length.
#[inline(always)]
fn write<O: Order>(s: &[u8], ranks: &Ranks, text: &mut [u8], digits: impl Fn(u8) -> [u8; 2]) -> usize {
    let mut out = Writer { text, at: 0 };
    out.bytes(HEADER);
    for [start, length, power, shared] in lines::<O>(s, ranks) {
        out.field(start);
        out.field(length);
        out.field(power);
        out.hexadecimal(&s[start..start + length], &digits);
        out.bytes(b",");
        out.number(shared);
        out.bytes(b"\r\n");
    }
    out.at
}

/// With the table of 256 pairs.
#[inline(never)]
pub fn listing<O: Order>(s: &[u8], ranks: &Ranks, text: &mut [u8]) -> usize {
    write::<O>(s, ranks, text, |b| PAIRS[usize::from(b)])
}

/// With the list of sixteen digits.
#[inline(never)]
pub fn listing_by_digits<O: Order>(s: &[u8], ranks: &Ranks, text: &mut [u8]) -> usize {
    write::<O>(s, ranks, text, |b| [b / 16, b % 16].map(|digit| DIGITS[usize::from(digit)]))
}
