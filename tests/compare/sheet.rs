//! The trainer's sheet, P1 to P14 and what follows it: the naive version must say what it says, and the engine what that says.
use crate::calls;
use crate::oracle::{NAIVE, factors};
use crate::ranks::{BYTE_ORDER, Order, reverse_order};
use crate::right::{Facts, flat};
use crate::short;
use crate::tally::{Tally, show};
use std::rc::Rc;

const S: &[u8] = b"acbabcabcabac";

/// A word: its factors' lengths, longest length and its starts, mark.
type Row = (&'static [u8], &'static [usize], usize, &'static [u16], usize);
#[rustfmt::skip]
const WORDS: [Row; 9] = [
    (b"", &[], 0, &[], 0),
    (b"a", &[1], 1, &[0], 0),
    (b"aa", &[1, 1], 1, &[0, 1], 0),
    (S, &[3, 3, 3, 4], 4, &[9], 9),
    (b"baab", &[1, 3], 3, &[1], 1),
    (b"abab", &[2, 2], 2, &[0, 2], 0),
    (b"aabab", &[5], 5, &[0], 0),
    (&[0x7F, 0x80], &[2], 2, &[0], 0),
    (&[0x80, 0x7F], &[1, 1], 1, &[0, 1], 1),
];

/// A word, from, to, block; kept, middle, resume, longest length, its starts.
type Change = (&'static [u8], usize, usize, &'static [u8], usize, &'static [[u16; 3]], usize, usize, &'static [u16]);
#[rustfmt::skip]
const EDITS: [Change; 7] = [
    (S, 5, 6, b"b", 1, &[[3, 6, 1]], 9, 6, &[3]),
    (S, 11, 11, b"a", 3, &[[9, 2, 1], [11, 3, 1]], 13, 3, &[0, 3, 6, 11]),
    (S, 9, 10, b"", 1, &[[3, 9, 1]], 13, 9, &[3]),
    (S, 1, 3, b"bac", 0, &[[0, 10, 1]], 9, 10, &[0]),
    (S, 7, 10, b"", 2, &[[6, 4, 1]], 13, 4, &[6]),
    (b"aa", 1, 1, b"a", 1, &[[1, 1, 1]], 1, 1, &[0, 1, 2]),
    (b"aba", 3, 3, b"c", 0, &[[0, 4, 1]], 3, 4, &[0]),
];

/// The sheet's words are read as ranks: what it says holds of the bytes that have them.
fn words(t: &mut Tally) {
    for (ranks, lengths, length, starts, mark) in WORDS {
        let w = t.order.spelled(ranks);
        let f = word(t, &w);
        let got: Vec<usize> = factors(&w, t.order.ranks()).iter().map(|f| f.1).collect();
        t.equal(&(&got[..], f.length, &f.starts[..], f.mark), &(lengths, length, starts, mark), || show(&w));
    }
}

/// Every call on a word, at each position; what is right of it.
fn word(t: &mut Tally, w: &[u8]) -> Facts {
    let f = short::facts(t, w);
    calls::word(t, &NAIVE, w, &f, &(0..=w.len() + 1).collect::<Vec<_>>());
    f
}

fn edits(t: &mut Tally) {
    let order = t.order.clone();
    for (ranks, from, to, block, kept, middle, resume, length, starts) in EDITS {
        let (w, block) = (order.spelled(ranks), order.spelled(block));
        let f = short::facts(t, &w);
        let g = f.given(&w, order.ranks(), from, to, &block);
        let e = (NAIVE.edit)(&g);
        let want = (kept, middle.concat(), resume, length, starts);
        t.equal(&(e.kept, flat(&e.middle), e.resume, e.length, &e.starts[..]), &want, || format!("edit of {}", show(&w)));
        short::edit(t, &f, &g);
    }
}

fn tables(t: &mut Tally) {
    let order = t.order.clone();
    let mut facts = |ranks: &[u8]| word(t, &order.spelled(ranks));
    let (ten, eleven, fourteen, sheet) = (facts(&[0, 1, 1, 0, 2, 3, 1, 2, 2]), facts(b"ababbababbabb"), facts(b"aabab"), facts(S));
    t.equal(&ten.array, &vec![9, 1, 1, 6, 2, 1, 3, 1, 1], || "P10".into());
    t.equal(&eleven.last, &vec![1, 2, 1, 2, 5, 1, 2, 1, 2, 5, 1, 2, 13], || "P11, prefix".into());
    t.equal(&eleven.array, &vec![13, 1, 3, 1, 1, 8, 1, 3, 1, 1, 3, 1, 1], || "P11, reach".into());
    t.equal(&fourteen.nodes, &vec![0, 5, 0, 3, 0, 1, 1, 2, 1, 1, 2, 1, 3, 2, 3, 1, 4, 1], || "P14".into());
    t.equal(&flat(&sheet.groups), &vec![0, 3, 1, 3, 3, 2, 9, 4, 1], || "the groups of S".into());
}

pub fn all(t: &mut Tally) {
    words(t);
    edits(t);
    tables(t);
}

/// What is right of the bytes of S under some ranks.
fn under(t: &mut Tally, name: &str, ranks: &[u8], each: impl FnOnce(&mut Tally, Facts)) {
    t.under(&Rc::new(Order::new(name, ranks)), |t| {
        let f = word(t, S);
        each(t, f);
    });
}

/// What is said of the bytes themselves: in byte order, and under the reverse order, where c is smaller than b and b smaller than a.
pub fn literally(t: &mut Tally) {
    under(t, "byte order", &BYTE_ORDER, |t, f| {
        let listing = "start,length,power,word,shared\r\n0,3,1,616362,1\r\n3,3,2,616263,2\r\n9,4,1,61626163,0\r\n";
        t.equal(&f.listing, &listing.into(), || "the listing of S".into());
    });
    under(t, "reverse order", &reverse_order(), |t, f| {
        let listing = "start,length,power,word,shared\r\n0,1,1,61,0\r\n1,11,1,6362616263616263616261,1\r\n12,1,1,63,0\r\n";
        t.equal(&f.listing, &listing.into(), || "the listing of S".into());
        t.equal(&flat(&f.groups), &vec![0, 1, 1, 1, 11, 1, 12, 1, 1], || "the groups of S".into());
        t.equal(&f.array, &vec![1, 11, 2, 1, 1, 7, 1, 1, 4, 1, 2, 1, 1], || "the reach table of S".into());
        t.equal(&f.last, &vec![1, 1, 2, 3, 4, 1, 6, 7, 1, 9, 10, 11, 1], || "the prefix table of S".into());
        t.equal(&(f.length, f.starts, f.mark), &(11, vec![1], 1), || "the longest word of S, and its mark".into());
        for (w, lyndon) in [([0x7F, 0x80], false), ([0x80, 0x7F], true)] {
            let f = word(t, &w);
            t.equal(&f.lyndon, &lyndon, || show(&w));
        }
    });
}
