//! Words of ten families around the longest that is accepted, held to the fast version.
use crate::calls::{self, Side};
use crate::edits;
use crate::engine::Given;
use crate::families::{A, B, families};
use crate::fast::{FAST, last_factor};
use crate::right::{Facts, LIMIT};
use crate::tally::{Random, Tally};

fn stretches(r: &mut Random, n: usize) -> Vec<(usize, usize)> {
    let mut all = vec![(0, 0), (0, 1), (0, n), (n / 2, n / 2 + 1), (n - 1, n), (n, n)];
    for _ in 0..4 {
        let from = r.below(n + 1);
        all.push((from, n.min(from + r.below(300))));
    }
    let (a, b) = (r.below(n + 1), r.below(n + 1));
    all.push((a.min(b), a.max(b)));
    all
}

/// A byte of the word, a part of it, or random bytes; the longest has 256.
fn block(r: &mut Random, w: &[u8]) -> Vec<u8> {
    match r.below(5) {
        0 => vec![],
        1 => vec![w[r.below(w.len())]],
        2 => vec![w[0].wrapping_add(r.below(3) as u8)],
        3 => {
            let start = r.below(w.len() - 256);
            w[start..start + 1 + r.below(256)].to_vec()
        }
        _ => {
            let size = r.below(257);
            r.bytes(size)
        }
    }
}

/// Edits of a long word: from, to, block.
pub fn some_edits(r: &mut Random, w: &[u8]) -> Vec<(usize, usize, Vec<u8>)> {
    let mut all = Vec::new();
    for (from, to) in stretches(r, w.len()) {
        all.push((from, to, block(r, w)));
        all.push((from, to, w[..(to - from).min(256)].to_vec()));
    }
    all
}

/// The word is that of the ranks, of which the blocks are made too.
fn long_edits(t: &mut Tally, r: &mut Random, ranks: &[u8], w: &[u8], f: &Facts) {
    let order = t.order.clone();
    for (from, to, block) in some_edits(r, ranks) {
        edits::compare(t, &FAST, f, &f.given(w, order.ranks(), from, to, &order.spelled(&block)));
    }
}

/// One entry changed somewhere: the questions over that table are refused.
fn wrong_entry(t: &mut Tally, r: &mut Random, w: &[u8], f: &Facts) {
    let (n, order) = (w.len(), t.order.clone());
    for place in [0, n - 1, r.below(n), r.below(n)] {
        let change = |table: &[u16]| {
            let mut wrong = table.to_vec();
            wrong[place] ^= 1;
            wrong
        };
        let (array, last) = (change(&f.array), change(&f.last));
        calls::part(t, &FAST, w, f, Side::Prefix, &last, n / 2);
        calls::part(t, &FAST, w, f, Side::Suffix, &array, n / 2);
        let given = f.given(w, order.ranks(), n / 2, n / 2 + 1, &[]);
        edits::compare(t, &FAST, f, &Given { array: &array, ..given });
        edits::compare(t, &FAST, f, &Given { last: &last, ..given });
    }
}

/// Words of half the longest pattern: two that differ in their last byte, and one whose last byte the next lacks. No neighbours share more.
pub fn halves(t: &mut Tally) {
    let most = LIMIT / 2 - 1;
    let equal = vec![A; most];
    let differ = [&equal[..], &[B + 1], &equal, &[B]].concat();
    let next = [&equal[1..], &[B]].concat();
    let shorter = [&next[..], &[B], &next].concat();
    for w in [differ, shorter].map(|ranks| t.order.spelled(&ranks)) {
        let f = (FAST.facts)(&w, t.order.ranks());
        let lengths: Vec<u16> = f.groups.iter().map(|g| g.length).collect();
        t.equal(&lengths, &vec![most as u16 + 1, (w.len() - most - 1) as u16], || "the lengths of two halves".into());
        let line = format!(",{most}\r\n{},", most + 1);
        t.check(String::from_utf8_lossy(&f.listing).contains(&line), || format!("no line of the halves shares {most} bytes"));
        calls::word(t, &FAST, &w, &f, &[most, most + 1, most + 2]);
    }
}

pub fn words(t: &mut Tally, r: &mut Random, n: usize) {
    for (family, ranks) in families(n, r) {
        assert_eq!(ranks.len(), n);
        t.origin = format!("{family}, {n} bytes: ");
        let w = t.order.spelled(&ranks);
        let f = (FAST.facts)(&w, t.order.ranks());
        let positions = [0, 1, n / 2, n - 1, n, n + 1, r.below(n), r.below(n), r.below(n), r.below(n)];
        for &q in positions.iter().filter(|&&q| 0 < q && q <= n) {
            let last = last_factor(&w[..q], t.order.ranks());
            t.equal(&usize::from(f.last[q - 1]), &last, || format!("the last factor of the first {q} bytes"));
        }
        calls::word(t, &FAST, &w, &f, &positions);
        long_edits(t, r, &ranks, &w, &f);
        wrong_entry(t, r, &w, &f);
    }
}
