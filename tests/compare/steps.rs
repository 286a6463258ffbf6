//! Words on which a step of several bytes begins, ends or fails at each place: agreements and stretches of lengths about multiples of sixteen, at
//! several offsets, all made of ranks. Every call is compared on them, and edits at the start, in the middle and at the end, over right tables and
//! over wrong ones.
use crate::calls::{self, Side};
use crate::edits;
use crate::engine::Given;
use crate::families::families;
use crate::fast::FAST;
use crate::right::Facts;
use crate::short::{self, random_block};
use crate::tally::{Random, Tally};

/// The longest word that is held to the definitions too.
const NAIVE_MOST: usize = 64;

const OFFSETS: [usize; 11] = [0, 1, 7, 8, 9, 15, 16, 17, 31, 32, 33];
pub const PERIODS: [usize; 13] = [1, 2, 3, 7, 8, 9, 15, 16, 17, 31, 32, 33, 64];
pub const AGREED: [usize; 13] = [14, 15, 16, 17, 18, 30, 31, 32, 33, 34, 47, 48, 49];
const ABOVE: [usize; 21] = [7, 8, 9, 14, 15, 16, 17, 18, 30, 31, 32, 33, 34, 47, 48, 49, 63, 64, 65, 80, 81];

/// A table with one entry changed, a little or to that of another place.
pub fn wrong(r: &mut Random, table: &[u16]) -> Vec<u16> {
    let place = r.below(table.len());
    let right = table[place];
    let end = (place + usize::from(right)).min(table.len() - 1);
    let other = [right - 1, right + 1, right.wrapping_add(table[end]), table[r.below(table.len())]][r.below(4)];
    let mut wrong = table.to_vec();
    wrong[place] = if other == right { right ^ 1 } else { other };
    wrong
}

fn edits_at_three_places(t: &mut Tally, r: &mut Random, w: &[u8], f: &Facts) {
    let (n, order) = (w.len(), t.order.clone());
    for from in [0, n / 2, n - r.below(n.min(3))] {
        let (to, block) = (n.min(from + r.below(4)), random_block(r, w));
        edits::compare(t, &FAST, f, &f.given(w, order.ranks(), from, to, &block));
    }
}

fn over_wrong_tables(t: &mut Tally, r: &mut Random, w: &[u8], f: &Facts) {
    let (array, last) = (wrong(r, &f.array), wrong(r, &f.last));
    let position = r.below(w.len() + 1);
    calls::part(t, &FAST, w, f, Side::Prefix, &last, position);
    calls::part(t, &FAST, w, f, Side::Suffix, &array, position);
    let order = t.order.clone();
    let given = f.given(w, order.ranks(), position, w.len(), &[]);
    edits::compare(t, &FAST, f, &Given { array: &array, ..given });
    edits::compare(t, &FAST, f, &Given { last: &last, ..given });
}

/// All calls on the word of at least one rank, and edits.
pub fn examine(t: &mut Tally, ranks: &[u8], r: &mut Random) {
    let (w, order) = (&t.order.spelled(ranks)[..], t.order.clone());
    let f = if w.len() <= NAIVE_MOST { short::facts(t, w) } else { (FAST.facts)(w, order.ranks()) };
    let positions = [r.below(w.len() + 1)];
    calls::word(t, &FAST, w, &f, &positions);
    edits_at_three_places(t, r, w, &f);
    over_wrong_tables(t, r, w, &f);
}

/// Families at every length to some blocks, and about larger multiples of sixteen.
pub fn lengths(t: &mut Tally, r: &mut Random) {
    for n in (2..=67).chain([79, 80, 81, 95, 96, 97, 111, 112, 113, 127, 128, 129, 143, 144, 145, 191, 192, 193]) {
        for (family, w) in families(n, r) {
            t.origin = format!("{family}, {n} bytes: ");
            examine(t, &w, r);
        }
    }
}

/// Bytes before a word whose first byte is c: factors of their own, or a smaller byte and then bytes above it, which take the word in.
pub fn lead(r: &mut Random, c: u8, length: usize) -> Vec<u8> {
    let above = if r.below(2) == 0 { 0xFF } else { c + 1 };
    let mut lead = vec![above; length];
    if length > 0 && r.below(3) == 0 {
        lead[0] = c - 1;
    }
    lead
}

/// Bytes above c: the next one, the next two, or any but the last.
fn above(r: &mut Random, c: u8, length: usize) -> Vec<u8> {
    let most = [1, 2, usize::from(0xFE - c)][r.below(3)];
    (0..length).map(|_| c + 1 + r.below(most) as u8).collect()
}

/// A Lyndon word of a length: its first byte and bytes above it, or its first byte over and over and then one above it.
pub fn period(r: &mut Random, c: u8, length: usize) -> Vec<u8> {
    if r.below(2) == 0 {
        return [&[c], &above(r, c, length - 1)[..]].concat();
    }
    let mut word = vec![c; length];
    word[length - 1] = if length == 1 { c } else { c + 1 };
    word
}

pub fn tail(r: &mut Random, w: &[u8]) -> Vec<u8> {
    let length = [0, 1, 15, 16, 17, 33][r.below(6)];
    if r.below(2) == 0 { r.letters(w, length) } else { w.iter().copied().cycle().take(length).collect() }
}

/// A word, so many bytes of its repetition, and there a smaller byte, a greater one or the end, then more.
fn ways(r: &mut Random, word: &[u8], agreed: usize) -> [Vec<u8>; 3] {
    let repeated: Vec<u8> = word.iter().copied().cycle().take(word.len() + agreed).collect();
    let next = word[agreed % word.len()];
    let go_on = |r: &mut Random, byte: u8| [&repeated[..], &[byte], &tail(r, word)].concat();
    [go_on(r, next - 1), go_on(r, next.saturating_add(1)), repeated.clone()]
}

/// Twice each in byte order.
pub fn agreements(t: &mut Tally, r: &mut Random) {
    let times = 1 + t.share(1);
    for offset in OFFSETS {
        for length in PERIODS {
            for agreed in AGREED.into_iter().flat_map(|agreed| vec![agreed; times]) {
                let c = [1, 0x7F, 0x80, 0x61][r.below(4)];
                let (lead, word) = (lead(r, c, offset), period(r, c, length));
                ways(r, &word, agreed).iter().for_each(|w| examine(t, &[&lead[..], w].concat(), r));
            }
        }
    }
}

/// A byte, a stretch of bytes above it, and then the same byte, a smaller one or the end, then more.
pub fn stretches(t: &mut Tally, r: &mut Random) {
    for offset in OFFSETS {
        for length in ABOVE {
            let c = [1, 0x7F, 0x80, 0xFD][r.below(4)];
            let word = [&lead(r, c, offset)[..], &[c], &above(r, c, length)].concat();
            examine(t, &word, r);
            for next in [c, c - 1] {
                let more = tail(r, &word);
                examine(t, &[&word[..], &[next], &more].concat(), r);
            }
        }
    }
}

/// The same byte or a smaller one at each place of a stretch of bytes above it.
pub fn broken_stretches(t: &mut Tally, r: &mut Random) {
    for length in [34, 50, 66] {
        for place in 1..=length {
            for offset in [0, 1, 8] {
                let c = [1, 0x7F, 0x80, 0xFD][r.below(4)];
                let mut word = [&lead(r, c, offset)[..], &[c], &above(r, c, length)].concat();
                word[offset + place] = c - r.below(2) as u8;
                examine(t, &word, r);
            }
        }
    }
}

/// So many letters c and the next one, c at most twice in a row.
fn mixed(r: &mut Random, c: u8, length: usize) -> Vec<u8> {
    let mut word = Vec::new();
    while word.len() < length {
        let run = word.iter().rev().take_while(|&&b| b == c).count();
        word.push(if run >= 2 { c + 1 } else { c + r.below(2) as u8 });
    }
    word
}

/// A word that begins with three letters a, which it has nowhere else: the scan goes on through it step by step.
fn opening(r: &mut Random, c: u8, length: usize) -> Vec<u8> {
    let rest = mixed(r, c, length.saturating_sub(4));
    [&vec![c; 3][..], &[c + 1], &rest].concat()[..length].to_vec()
}

/// Behind an opening of up to 140 bytes a stretch above its first byte or the opening again, up to a place at which it differs.
pub fn behind_openings(t: &mut Tally, r: &mut Random, count: usize) {
    for k in 0..t.share(count) {
        let c = [1, 0x7F, 0x80, 0x61][r.below(4)];
        let length = 3 + r.below(138);
        let offset = r.below(20);
        let (lead, mut word) = (lead(r, c, offset), opening(r, c, length));
        if k % 2 == 0 {
            let length = r.below(100);
            word.extend(above(r, c, length));
            word.extend([vec![], vec![c], vec![c - 1], vec![c; 4]][r.below(4)].iter());
            word.extend(tail(r, &word));
        } else {
            let agreed = [r.below(2 * word.len()), word.len() * (1 + r.below(2)), 16 * r.below(9)][r.below(3)];
            word = ways(r, &word, agreed)[r.below(3)].clone();
        }
        examine(t, &[&lead[..], &word].concat(), r);
    }
}

/// A word that begins with six to ten equal letters, and a shorter, as long or longer run of them at each place of what follows, up to 26 bytes
/// before the end.
pub fn runs(t: &mut Tally, r: &mut Random) {
    for first in 6..=10 {
        for inner in 5..=first + 1 {
            for place in 0..48 {
                let c = [1, 0x7F, 0x80, 0xFD][r.below(4)];
                let (before, behind) = (mixed(r, c, place), r.below(27));
                let next = [c + 1, c + 2, c - 1][r.below(3)];
                let word = [&vec![c; first][..], &[c + 1], &before, &[c + 1], &vec![c; inner], &[next], &mixed(r, c, behind)].concat();
                let offset = [0, 1, 8][r.below(3)];
                examine(t, &[&lead(r, c, offset)[..], &word].concat(), r);
            }
        }
    }
}
