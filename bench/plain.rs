//! The textbook's algorithms as one writes them in safe Rust, byte by byte. They refuse nothing; an index out of range panics.
//! None that is called is inlined into its caller, as the engine's are not, so that a tool finds them by name.
#![forbid(unsafe_code)]
use crate::inputs::SIZE;
use crate::order::{Order, Ranks};

/// Factor length and power of the group that starts at i, by Duval's scan.
fn group<O: Order>(s: &[u8], ranks: &Ranks, i: usize) -> (usize, usize) {
    let (mut j, mut k) = (i + 1, i);
    while j < s.len() && O::at_most(ranks, s[k], s[j]) {
        if s[k] != s[j] {
            k = i;
        } else {
            k += 1;
        }
        j += 1;
    }
    (j - k, (j - i) / (j - k))
}

/// Start, factor length and power of each group.
fn groups<O: Order>(s: &[u8], ranks: &Ranks) -> impl Iterator<Item = (usize, usize, usize)> {
    let mut i = 0;
    std::iter::from_fn(move || {
        (i < s.len()).then(|| {
            let start = i;
            let (length, power) = group::<O>(s, ranks, i);
            i += length * power;
            (start, length, power)
        })
    })
}

/// One pass over the groups, three numbers each.
#[inline(never)]
pub fn factor<O: Order>(s: &[u8], ranks: &Ranks, row: &mut [u16]) -> usize {
    let mut count = 0;
    for (start, length, power) in groups::<O>(s, ranks) {
        row[3 * count..3 * count + 3].copy_from_slice(&[start as u16, length as u16, power as u16]);
        count += 1;
    }
    count
}

/// Whether a is smaller than b, compared byte by byte.
fn precedes<O: Order>(a: &[u8], b: &[u8], ranks: &Ranks) -> bool {
    for (&x, &y) in a.iter().zip(b) {
        if x != y {
            return O::below(ranks, x, y);
        }
    }
    a.len() < b.len()
}

/// Entry i of the reach table, where the entries behind it are right: the word at i merged with the next one while it is smaller.
fn reach<O: Order>(s: &[u8], ranks: &Ranks, table: &[u16], i: usize) -> usize {
    let mut m = i + 1;
    while m < s.len() {
        let end = m + usize::from(table[m]);
        if !precedes::<O>(&s[i..m], &s[m..end], ranks) {
            break;
        }
        m = end;
    }
    m - i
}

/// Lyndon words merged from the right.
#[inline(never)]
pub fn array<O: Order>(s: &[u8], ranks: &Ranks, table: &mut [u16]) -> usize {
    for i in (0..s.len()).rev() {
        table[i] = reach::<O>(s, ranks, table, i) as u16;
    }
    s.len()
}

/// Whether it is the reach table; an entry to the left is looked at once those to its right are found right.
pub fn is_array<O: Order>(s: &[u8], ranks: &Ranks, table: &[u16]) -> bool {
    (0..s.len()).rev().all(|i| usize::from(table[i]) == reach::<O>(s, ranks, table, i))
}

/// Duval's scan with the length of the last factor at each place.
#[inline(never)]
pub fn last_factors<O: Order>(s: &[u8], ranks: &Ranks, table: &mut [u16]) -> usize {
    let mut i = 0;
    while i < s.len() {
        table[i] = 1;
        let mut j = i + 1;
        let mut k = i;
        while j < s.len() && O::at_most(ranks, s[k], s[j]) {
            if s[k] != s[j] {
                k = i;
                table[j] = (j + 1 - i) as u16;
            } else {
                table[j] = table[k];
                k += 1;
            }
            j += 1;
        }
        i = j - (j - i) % (j - k);
    }
    s.len()
}

/// The start of the first group of the doubled pattern that ends at its middle or after it; none where that group's word is shorter than the
/// pattern, which then is a rotation of that word, repeated.
#[inline(never)]
pub fn least_rotation<O: Order>(s: &[u8], ranks: &Ranks) -> Option<usize> {
    let n = s.len();
    let mut buffer = [0; 2 * SIZE];
    buffer[..n].copy_from_slice(s);
    buffer[n..2 * n].copy_from_slice(s);
    let found = groups::<O>(&buffer[..2 * n], ranks).find(|(start, length, power)| n <= start + length * power);
    found.map_or(Some(0), |(start, length, _)| (length == n).then_some(start))
}
