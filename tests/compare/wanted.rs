//! Wanted reach tables. Which pattern is written is left free, so it is judged by its reach table.
use crate::engine;
use crate::families::families;
use crate::fast;
use crate::lent::{Lent, lengths};
use crate::oracle;
use crate::right::{WANTED_LIMIT, wanted_holds};
use crate::short::{every_word, random_of};
use crate::tally::{Random, Tally, brief, show};
use std::collections::HashSet;

/// How the reach table of a pattern under an order is told.
pub type Reach = fn(&[u8], &[u8]) -> Vec<u16>;

/// A call with one buffer; `had` says whether a pattern has the table, and `reach` tells the table of the one written.
pub fn one(t: &mut Tally, wanted: &[u16], had: bool, room: usize, reach: Reach) {
    let (n, order) = (wanted.len(), t.order.clone());
    let table = Lent::holding(wanted);
    let mut buffer = Lent::<u8>::blank(room);
    let got = engine::realise_array(table.contents(), order.ranks(), buffer.row());
    let number = wanted_holds(n, order.ranks(), had).and(8, room < n).first();
    let case = || format!("realise_array of {}, buffer of {room}", brief(wanted));
    t.equal(&got, &(number, [if number == 0 { n } else { 0 }, 0]), case);
    let pattern = if number == 0 { buffer.contents()[..n].to_vec() } else { vec![] };
    if number == 0 {
        t.check(reach(&pattern, order.ranks()) == wanted, || format!("{}: {} has another table", case(), show(&pattern)));
    }
    t.check(buffer.holds(&pattern), || format!("{}: bytes behind the pattern were changed", case()));
    t.check(table.unchanged() && order.unchanged(), || format!("{}: the table or the order was changed", case()));
}

/// Buffers too short, exact and longer.
fn buffers(t: &mut Tally, wanted: &[u16], had: bool, reach: Reach) {
    for room in lengths(wanted.len()) {
        one(t, wanted, had, room, reach);
    }
}

/// The ranks of six letters.
const LETTERS: [u8; 6] = [0, 1, 0x7F, 0x80, 0xC0, 0xFF];

/// Calls `each` with every table of n entries from the given ones.
fn every_table(entries: &[u16], n: usize, each: &mut impl FnMut(&[u16])) {
    let mut places = vec![0; n];
    loop {
        each(&places.iter().map(|&k| entries[k]).collect::<Vec<u16>>());
        let Some(last) = places.iter().rposition(|&k| k + 1 < entries.len()) else { return };
        places[last] += 1;
        places[last + 1..].fill(0);
    }
}

/// Every table with entries from 0 to one that goes past the end from every place, and the largest. Of n bytes no more than n differ, so all patterns
/// over n letters have all tables there are.
pub fn short(t: &mut Tally, length: usize) {
    for n in 0..=length {
        let words: Vec<_> = every_word(&t.order.spelled(&LETTERS[..n]), n).into_iter().filter(|w| w.len() == n).collect();
        let tables: HashSet<Vec<u16>> = words.iter().map(|w| oracle::reach(w, t.order.ranks())).collect();
        t.words += words.len();
        let entries: Vec<u16> = (0..=n as u16 + 1).chain([0xFFFF]).collect();
        every_table(&entries, n, &mut |wanted| {
            let had = tables.contains(wanted);
            t.equal(&oracle::nests(wanted), &had, || format!("whether {} nests", brief(wanted)));
            buffers(t, wanted, had, oracle::reach);
        });
    }
}

/// The table with one entry changed to one next to it, to the edges of what fits, to one that is drawn.
fn changed(r: &mut Random, table: &[u16]) -> Vec<u16> {
    let mut wrong = table.to_vec();
    if !wrong.is_empty() {
        let place = r.below(table.len());
        let left = (table.len() - place) as u16;
        let drawn = 1 + r.below(usize::from(left)) as u16;
        wrong[place] = [0, table[place] + 1, table[place] - 1, left, left + 1, 1, drawn, 0xFFFF][r.below(8)];
    }
    wrong
}

/// A table that a pattern has, and tables next to it.
fn around(t: &mut Tally, r: &mut Random, origin: String, table: &[u16]) {
    t.origin = format!("{origin}: ");
    buffers(t, table, true, fast::reach);
    for k in 0..4 {
        t.origin = format!("{origin}, change {k}: ");
        let wrong = changed(r, table);
        buffers(t, &wrong, oracle::nests(&wrong), fast::reach);
    }
}

/// Most are as long as a wanted table may be.
fn length(r: &mut Random) -> usize {
    if r.below(4) == 0 { r.below(WANTED_LIMIT + 2) } else { WANTED_LIMIT }
}

/// The table of the pattern of these ranks, and tables next to it.
fn of_pattern(t: &mut Tally, r: &mut Random, origin: String, ranks: &[u8]) {
    t.words += 1;
    let table = fast::reach(&t.order.spelled(ranks), t.order.ranks());
    around(t, r, origin, &table);
}

/// Tables of patterns.
pub fn random(t: &mut Tally, r: &mut Random, count: usize) {
    for n in [WANTED_LIMIT - 1, WANTED_LIMIT, WANTED_LIMIT + 1] {
        for (family, w) in families(n, r) {
            of_pattern(t, r, format!("{family}, {n} bytes"), &w);
        }
    }
    for k in 0..t.share(count) {
        let n = length(r);
        let w = random_of(r, n);
        of_pattern(t, r, format!("random pattern {k}"), &w);
    }
}

/// A table whose stretches nest, drawn from the right: those behind a start follow one another to the end, and its own ends before one of them, with a
/// chance of one in `odds` at each, or at the end.
fn nested(r: &mut Random, n: usize, odds: usize) -> Vec<u16> {
    let mut table = vec![0; n];
    for start in (0..n).rev() {
        let mut end = start + 1;
        while end < n && r.below(odds) > 0 {
            end += usize::from(table[end]);
        }
        table[start] = (end - start) as u16;
    }
    table
}

/// Tables drawn as such, from those with short stretches to those in which most go to the end.
pub fn drawn(t: &mut Tally, r: &mut Random, count: usize) {
    for k in 0..t.share(count) {
        let n = length(r);
        let odds = [2, 3, 8, 64, 1024][k % 5];
        let table = nested(r, n, odds);
        t.check(oracle::nests(&table), || format!("drawn table {k} does not nest"));
        around(t, r, format!("drawn table {k}"), &table);
    }
}
