//! The steps of an edit as one writes them in safe Rust: both tables tested, the edited pattern spliced, its factors scanned once by machine words
//! and kept, both rows written. `edit` tests the reach table with a memo, `edit_short` by merging alone, and `trusting` tests neither table.
//! They refuse wrong tables and short rows before they write; the other refusals are left to the engine.
#![forbid(unsafe_code)]
use crate::engine::{EditAnswer, Given, Group};
use crate::order::{Order, Ranks};
use crate::plain;
use crate::plain_memo;
use crate::plain_words::groups;
use std::cmp::Ordering;

fn is_last_factors<O: Order>(s: &[u8], ranks: &Ranks, table: &[u16]) -> bool {
    let mut i = 0;
    while i < s.len() {
        let (mut j, mut k) = (i + 1, i);
        let mut right = table[i] == 1;
        while right && j < s.len() && O::at_most(ranks, s[k], s[j]) {
            if s[k] != s[j] {
                k = i;
                right = usize::from(table[j]) == j + 1 - i;
            } else {
                right = table[j] == table[k];
                k += 1;
            }
            j += 1;
        }
        if !right {
            return false;
        }
        i = j - (j - i) % (j - k);
    }
    true
}

/// Start, factor length and power.
type Span = (usize, usize, usize);

/// How many leading factors end by q, and where.
fn ends(groups: impl Iterator<Item = Span>, q: usize) -> (usize, usize) {
    let (mut count, mut end) = (0, 0);
    for (start, length, power) in groups {
        let within = power.min((q - start) / length);
        count += within;
        end = start + within * length;
        if within < power {
            break;
        }
    }
    (count, end)
}

/// The first start of a factor at or after q, or else the end n.
fn first_start(mut groups: impl Iterator<Item = Span>, q: usize, n: usize) -> usize {
    let reaching = groups.find(|(start, length, power)| q <= start + length * power);
    reaching.map_or(n, |(start, length, _)| start + (q - start).div_ceil(length) * length)
}

fn stored_ends(array: &[u16], q: usize) -> (usize, usize) {
    let (mut count, mut end) = (0, 0);
    while end < array.len() && end + usize::from(array[end]) <= q {
        end += usize::from(array[end]);
        count += 1;
    }
    (count, end)
}

fn refused(refusal: u8) -> EditAnswer {
    EditAnswer { refusal, kept: 0, resume: 0, groups: 0, length: 0, starts: 0 }
}

/// The length of the longest factors, and how many there are.
fn longest(groups: impl Iterator<Item = Span>) -> (usize, usize) {
    groups.fold((0, 0), |(length, count), (_, size, power)| match size.cmp(&length) {
        Ordering::Greater => (size, power),
        Ordering::Equal => (length, count + power),
        Ordering::Less => (length, count),
    })
}

/// Writes the starts of the factors of that length.
fn put_starts(groups: impl Iterator<Item = Span>, length: usize, row: &mut [u16]) {
    let longest = groups.filter(|g| g.1 == length);
    let all = longest.flat_map(|(start, size, power)| (0..power).map(move |k| start + k * size));
    for (out, start) in row.iter_mut().zip(all) {
        *out = start as u16;
    }
}

fn record((start, length, power): Span) -> Group {
    Group { start: start as u16, length: length as u16, power: power as u16 }
}

/// The part of a group that lies between two ends of factors.
fn clipped((start, length, power): Span, from: usize, to: usize) -> Option<Span> {
    let (first, end) = (start.max(from), to.min(start + length * power));
    (first < end).then(|| (first, length, (end - first) / length))
}

/// The ranks that an edit is given.
fn ranks<'a>(e: &Given<'a>) -> &'a Ranks {
    e.order.try_into().expect("256 ranks")
}

/// Believes both tables.
#[inline(never)]
pub fn trusting<O: Order>(e: &Given, middle: &mut [Group], starts: &mut [u16]) -> EditAnswer {
    let t = [&e.pattern[..e.from], e.block, &e.pattern[e.to..]].concat();
    let q = e.from + e.block.len();
    let all: Vec<Span> = groups::<O>(&t, ranks(e)).collect();
    let all = || all.iter().copied();
    let fresh = ends(all(), e.from);
    let place = first_start(all(), q, t.len());
    let (kept, end) = stored_ends(e.array, e.from).min(fresh);
    let between = || all().filter_map(|group| clipped(group, end, place));
    let count = between().count();
    let (length, times) = longest(all());
    if middle.len() < count || starts.len() < times {
        return refused(8);
    }
    for (out, group) in middle.iter_mut().zip(between()) {
        *out = record(group);
    }
    put_starts(all(), length, starts);
    EditAnswer { refusal: 0, kept, resume: e.to + (place - q), groups: count, length, starts: times }
}

#[inline(never)]
pub fn edit<O: Order>(e: &Given, middle: &mut [Group], starts: &mut [u16]) -> EditAnswer {
    let right = plain_memo::is_array::<O>(e.pattern, ranks(e), e.array) && is_last_factors::<O>(e.pattern, ranks(e), e.last);
    if right { trusting::<O>(e, middle, starts) } else { refused(5) }
}

#[inline(never)]
pub fn edit_short<O: Order>(e: &Given, middle: &mut [Group], starts: &mut [u16]) -> EditAnswer {
    let right = plain::is_array::<O>(e.pattern, ranks(e), e.array) && is_last_factors::<O>(e.pattern, ranks(e), e.last);
    if right { trusting::<O>(e, middle, starts) } else { refused(5) }
}
