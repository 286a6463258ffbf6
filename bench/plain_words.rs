//! Duval's scan as one writes it in safe Rust by machine words: bytes above the factor's first are passed over 32 at a time, by ranks sixteen,
//! and a stretch that repeats is compared eight bytes at a time. Groups and the phase mark are made of it as in plain.rs; what is called is not
//! inlined, so that a tool finds it by name.
#![forbid(unsafe_code)]
use crate::order::{Order, Ranks};

const WORD: usize = 8;

fn word(s: &[u8], at: usize) -> u64 {
    u64::from_le_bytes(s[at..at + WORD].try_into().expect("eight bytes"))
}

/// How many bytes from k on agree with those from j on, which lie further right.
#[inline(always)]
fn agreeing(s: &[u8], k: usize, j: usize) -> usize {
    let most = s.len() - j;
    let mut m = 0;
    while m + WORD <= most {
        let differing = word(s, k + m) ^ word(s, j + m);
        if differing != 0 {
            return m + (differing.trailing_zeros() / 8) as usize;
        }
        m += WORD;
    }
    while m < most && s[k + m] == s[j + m] {
        m += 1;
    }
    m
}

/// The first place from j on whose byte is not above one, or else the end.
#[inline(always)]
fn first_not_above<O: Order>(s: &[u8], ranks: &Ranks, mut j: usize, byte: u8) -> usize {
    let rank = O::rank(ranks, byte);
    while let Some(stride) = s[j..].get(..O::STRIDE) {
        if stride.iter().fold(false, |any, &b| any | (O::rank(ranks, b) <= rank)) {
            break;
        }
        j += O::STRIDE;
    }
    while j < s.len() && O::rank(ranks, s[j]) > rank {
        j += 1;
    }
    j
}

/// Factor length and power of the group that starts at i.
#[inline(always)]
fn group<O: Order>(s: &[u8], ranks: &Ranks, i: usize) -> (usize, usize) {
    let (mut j, mut k) = (i + 1, i);
    loop {
        if k == i {
            j = first_not_above::<O>(s, ranks, j, s[i]);
        }
        let agreeing = agreeing(s, k, j);
        k += agreeing;
        j += agreeing;
        if j == s.len() || O::below(ranks, s[j], s[k]) {
            let length = j - k;
            return (length, if k - i < length { 1 } else { (j - i) / length });
        }
        k = i;
        j += 1;
    }
}

/// Start, factor length and power of each group.
pub fn groups<O: Order>(s: &[u8], ranks: &Ranks) -> impl Iterator<Item = (usize, usize, usize)> {
    let mut i = 0;
    std::iter::from_fn(move || {
        (i < s.len()).then(|| {
            let start = i;
            let (length, power) = group::<O>(s, ranks, i);
            i += length * power;
            (start, length, power)
        })
    })
}

/// One pass over the groups, three numbers each.
#[inline(never)]
pub fn factor<O: Order>(s: &[u8], ranks: &Ranks, row: &mut [u16]) -> usize {
    let mut count = 0;
    for (start, length, power) in groups::<O>(s, ranks) {
        row[3 * count..3 * count + 3].copy_from_slice(&[start as u16, length as u16, power as u16]);
        count += 1;
    }
    count
}

/// As that of plain.rs, over a doubled copy on the heap, which is as long as the pattern asks for.
#[inline(never)]
pub fn least_rotation<O: Order>(s: &[u8], ranks: &Ranks) -> Option<usize> {
    let n = s.len();
    let doubled = s.repeat(2);
    let found = groups::<O>(&doubled, ranks).find(|(start, length, power)| n <= start + length * power);
    found.map_or(Some(0), |(start, length, _)| (length == n).then_some(start))
}
