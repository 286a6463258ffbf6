//! Long words with periods inside periods, on which a comparison that starts from what was seen before has most to remember, and much of it in the
//! same place. They are made of ranks. The reach table is made and tested on many of them, and every call is compared on some.
use crate::calls::{self, Side};
use crate::families::{A, B, families};
use crate::fast::{FAST, reach};
use crate::right::{Facts, LIMIT};
use crate::steps::{examine, wrong};
use crate::tally::{Random, Tally};

/// The reach table of the word of these ranks made, and questions over it as it is and with an entry changed.
fn table(t: &mut Tally, ranks: &[u8], r: &mut Random) {
    t.words += 1;
    let w = &t.order.spelled(ranks)[..];
    let f = Facts { array: reach(w, t.order.ranks()), ..Facts::default() };
    calls::array(t, w, &f);
    let position = r.below(w.len() + 1);
    calls::part(t, &FAST, w, &f, Side::Suffix, &f.array, position);
    for _ in 0..3 {
        calls::part(t, &FAST, w, &f, Side::Suffix, &wrong(r, &f.array), position);
    }
}

/// a^m b, so many times.
fn runs(m: usize, times: usize) -> Vec<u8> {
    [&vec![A; m][..], &[B]].concat().repeat(times)
}

/// A word over and over, to a length.
fn cycled(word: &[u8], n: usize) -> Vec<u8> {
    word.iter().copied().cycle().take(n).collect()
}

/// The word with a byte one larger or smaller at a place.
fn with_change(r: &mut Random, mut w: Vec<u8>) -> Vec<u8> {
    let place = r.below(w.len());
    w[place] = if r.below(2) == 0 { w[place].saturating_add(1) } else { w[place].saturating_sub(1) };
    w
}

/// A word to be repeated: random letters, a^m b, or a shorter a^m b over and over.
fn part(r: &mut Random, length: usize) -> Vec<u8> {
    match r.below(3) {
        0 => r.letters(&[A, B], length),
        1 => runs(length - 1, 1),
        _ => cycled(&runs(r.below(9), 1), length),
    }
}

/// (u^k v)^l, where v is a beginning of u or one with its last byte changed, and u is of up to 300 bytes, or made in the same way.
fn nested(r: &mut Random, n: usize) -> Vec<u8> {
    let length = 1 + r.below(300);
    let mut word = part(r, length);
    for _ in 0..r.below(4) {
        if word.len() < n {
            let mut more = word[..1 + r.below(word.len())].to_vec();
            let last = more.len() - 1;
            more[last] = more[last].saturating_add(r.below(2) as u8);
            word = [word.repeat(1 + r.below(6)), more].concat();
        }
    }
    let w = cycled(&word, n);
    if r.below(3) == 0 { with_change(r, w) } else { w }
}

/// a^m b a^m b for many m, as it is, between other bytes, and with a byte changed.
pub fn two_runs(t: &mut Tally, r: &mut Random) {
    for m in (1..=260).chain((300..=2000).step_by(100)) {
        t.origin = format!("a^m b a^m b, m = {m}: ");
        let w = runs(m, 2);
        table(t, &w, r);
        table(t, &with_change(r, w.clone()), r);
        let (before, behind) = (r.below(40), r.below(40));
        table(t, &[r.letters(&[A, B], before), w, r.letters(&[A, B], behind)].concat(), r);
    }
}

/// Periods about 64, 128 and 256, so that the same places of all of them meet modulo 128, and a letter above theirs now and then.
pub fn same_places(t: &mut Tally, r: &mut Random) {
    for length in [31, 32, 33, 63, 64, 65, 127, 128, 129, 255, 256, 257, 383, 384, 385] {
        for times in 1..=5 {
            t.origin = format!("period of {length}, {times} times: ");
            let word = part(r, length);
            let rising = [&word[..length - 1], &[B + 1]].concat();
            let whole = [word.repeat(times), rising].concat();
            let n = (2 * whole.len()).max(1000) + r.below(300);
            table(t, &cycled(&whole, n), r);
            table(t, &cycled(&runs(length - 1, times), n), r);
            table(t, &with_change(r, cycled(&whole, n)), r);
        }
    }
}

/// One letter or a few, each time behind the same word, which most of the comparisons then share; half of them before two long runs.
fn spaced(r: &mut Random, count: usize) -> Vec<u8> {
    let length = 16 + r.below(150);
    let word = if r.below(2) == 0 { vec![A; length] } else { part(r, length) };
    let letters = if r.below(2) == 0 { r.letters(&[B, B + 1, B + 2], count) } else { cycled(&nested(r, 9), count) };
    let more = r.below(3);
    let mut w = Vec::new();
    for letter in letters {
        w.extend(&word);
        w.push(letter);
        let behind = r.below(more + 1);
        w.extend(r.letters(&[B, B + 1], behind));
    }
    if r.below(2) == 0 {
        w.extend(runs(length + r.below(300), 2));
    }
    w
}

pub fn spaced_letters(t: &mut Tally, r: &mut Random, count: usize) {
    for k in 0..t.share(count) {
        t.origin = format!("spaced letters {k}: ");
        let length = 2 + r.below(14);
        table(t, &spaced(r, length), r);
    }
}

/// Every tenth with all calls.
pub fn nested_periods(t: &mut Tally, r: &mut Random, count: usize) {
    for k in 0..t.share(count) {
        t.origin = format!("nested periods {k}: ");
        let n = 200 + r.below(1800);
        let w = nested(r, n);
        if k % 10 == 0 { examine(t, &w, r) } else { table(t, &w, r) }
    }
}

/// Families with a byte changed.
pub fn changed_families(t: &mut Tally, r: &mut Random, count: usize) {
    for _ in 0..t.share(count) {
        let n = 300 + r.below(2000);
        for (family, w) in families(n, r).into_iter().skip(2) {
            t.origin = format!("{family}, {n} bytes, a byte changed: ");
            table(t, &with_change(r, w), r);
        }
    }
}

/// a^n b of many lengths.
pub fn one_run(t: &mut Tally, r: &mut Random) {
    for n in (1..=LIMIT).step_by(1170).chain([LIMIT - 1, LIMIT]) {
        t.origin = format!("a^n b, {n} bytes: ");
        table(t, &runs(n - 1, 1), r);
    }
}

/// Every call on periodic words of thousands of bytes, up to the longest.
pub fn long(t: &mut Tally, r: &mut Random) {
    for n in [4096, 8191, LIMIT - 1, LIMIT, LIMIT] {
        let changed = families(n, r).into_iter().skip(2).map(|(_, w)| w).nth(r.below(8)).expect("one of the eight families without chance");
        let m = n / 2 - 1;
        let words = [
            nested(r, n),
            with_change(r, changed),
            with_change(r, runs(m, 2)),
            cycled(&runs(127, 1), n),
            cycled(&runs(r.below(300), 3), n),
        ];
        for (k, w) in words.iter().enumerate() {
            t.origin = format!("periodic word {k} of {n} bytes: ");
            examine(t, w, r);
        }
    }
}
