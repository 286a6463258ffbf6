//! Two and more refusals at once: the first in number order is answered, but 9 and 13 before all others, and 11 and 12 before 8. Every pair that
//! can hold of a call must have been met alone. What is given beside ranks that are no order is right or wrong under the part's order.
use crate::block_oracle::{read_holds, written};
use crate::blocks;
use crate::calls::{self, Side, Want};
use crate::comparisons;
use crate::edits;
use crate::engine::{self, Answer, Given};
use crate::families::{A, B};
use crate::fast::{self, FAST};
use crate::lent::Entry;
use crate::ranks::Order;
use crate::right::{
    Edit, Facts, Holds, LIMIT, WANTED_LIMIT, edit_holds, flat, length_holds, mark_holds, part_holds, pattern_holds, tree_holds,
    wanted_holds,
};
use crate::tally::{Random, Tally};
use crate::wanted;
use std::collections::HashSet;
use std::fmt::Debug;
use std::rc::Rc;

/// The calls on a pattern that write a row and need no table.
const PLAIN: [&str; 6] = ["factor", "lyndon_array", "last_factors", "longest_words", "write_listing", "write_block"];

/// The sets of refusals met.
type Met = HashSet<Holds>;

/// A call with one row; its set of refusals is noted.
fn meet<T, C>(t: &mut Tally, met: &mut Met, name: &str, w: &[u8], row: usize, want: &Want<T>, call: C)
where
    T: Entry + Debug,
    C: Fn(&[u8], &[u8], &mut [T]) -> Answer,
{
    met.insert(want.holds.and(8, row < want.result.len()));
    calls::one(t, name, w, row, want, call);
}

fn every_pair(t: &mut Tally, name: &str, met: &Met, numbers: &[u8]) {
    for (k, &first) in numbers.iter().enumerate() {
        for &second in &numbers[k + 1..] {
            let pair = Holds::default().and(first, true).and(second, true);
            t.check(met.contains(&pair), || format!("{name}: {first} and {second} alone were never met"));
        }
    }
}

/// The order of the part, and the same with one rank twice, which is none.
fn orders(t: &Tally) -> [Rc<Order>; 2] {
    let mut ranks = t.order.ranks().to_vec();
    ranks[0x80] = ranks[0x7F];
    [t.order.clone(), Rc::new(Order::new("a rank twice", &ranks))]
}

/// A call with rows too short, exact and longer.
fn plain_rows<T, C>(t: &mut Tally, met: &mut Met, name: &str, w: &[u8], want: &Want<T>, call: C)
where
    T: Entry + Debug,
    C: Fn(&[u8], &[u8], &mut [T]) -> Answer,
{
    let need = want.result.len();
    for row in [0, need - 1, need, need + 4] {
        meet(t, met, name, w, row, want, &call);
    }
}

/// The calls that write a row and need no table, with the refusals met of each.
fn plain_calls(t: &mut Tally, met: &mut [Met; 6], w: &[u8], f: &Facts) {
    let n = w.len();
    let holds = pattern_holds(n, t.order.ranks());
    type Call = fn(&[u8], &[u8], &mut [u16]) -> Answer;
    let all: [([usize; 2], &[u16], Call); 4] = [
        ([f.groups.len(), 0], &flat(&f.groups), engine::factor),
        ([n, 0], &f.array, engine::array),
        ([n, 0], &f.last, engine::last_factors),
        ([f.length, f.starts.len()], &f.starts, engine::longest_words),
    ];
    for (k, (numbers, result, call)) in all.into_iter().enumerate() {
        plain_rows(t, &mut met[k], PLAIN[k], w, &Want { holds, numbers, result }, call);
    }
    let want = Want { holds, numbers: [f.listing.len(), 0], result: &f.listing[..] };
    plain_rows(t, &mut met[4], PLAIN[4], w, &want, engine::write_listing);
    let block = written(w);
    let want = Want { holds: length_holds(n), numbers: [block.len(), 0], result: &block[..] };
    plain_rows(t, &mut met[5], PLAIN[5], w, &want, |pattern, _, row| engine::write_block(pattern, row));
}

/// A word that is too long, and one that is not. A block has no order.
fn plain(t: &mut Tally, words: &[(&[u8], Facts)]) {
    let mut met: [Met; 6] = Default::default();
    for (order, (w, f)) in orders(t).iter().flat_map(|order| words.iter().map(move |word| (order, word))) {
        t.under(order, |t| plain_calls(t, &mut met, w, f));
    }
    for (name, met) in PLAIN.iter().zip(&met) {
        every_pair(t, name, met, if *name == "write_block" { &[1, 8] } else { &[13, 1, 8] });
    }
}

/// Those that write no row: two strings compared, whether a word is Lyndon, the trigger word, which has no number.
fn told(t: &mut Tally, words: &[(&[u8], Facts)]) {
    let mut met = Met::new();
    for (order, (w, f)) in orders(t).iter().flat_map(|order| words.iter().map(move |word| (order, word))) {
        met.insert(pattern_holds(w.len(), order.ranks()));
        t.under(order, |t| calls::telling(t, w, f));
        for (a, b) in [(&w[..], &w[..3]), (w, w)] {
            let numbers = fast::compared(a, b, t.order.ranks());
            t.under(order, |t| comparisons::told(t, a, b, numbers));
        }
    }
    every_pair(t, "told", &met, &[13, 1]);
}

/// Blocks that say too many bytes: as they are, and with a byte too few or too many, which are none.
fn blocks_read(t: &mut Tally, w: &[u8]) {
    let mut met = Met::new();
    let block = written(w);
    for bytes in [&block[..], &block[..block.len() - 1], &block[..7], &[&block[..], b"\r\n"].concat()] {
        met.insert(read_holds(bytes));
        blocks::read(t, bytes);
    }
    every_pair(t, "read_block", &met, &[9, 1]);
}

/// A word of 3,277 bytes has one too many when it comes five times.
fn marks(t: &mut Tally, w: &[u8]) {
    let mut met = Met::new();
    for looped in [&w[..3277].repeat(5), &w[..3277].repeat(4), &vec![A; LIMIT + 1], w] {
        let (repeated, mark) = (fast::repeated(looped), fast::mark(looped, t.order.ranks()));
        for order in orders(t) {
            met.insert(mark_holds(looped.len(), order.ranks(), repeated));
            t.under(&order, |t| calls::least_rotation(t, looped, repeated, mark));
        }
    }
    every_pair(t, "least_rotation", &met, &[13, 1, 10]);
}

/// Where there is no tree a row with no entry counts as too short.
fn tree(t: &mut Tally) {
    let mut met = Met::new();
    for n in [2, 256, 257] {
        let lyndon: Vec<u8> = (1..=n).map(|k| if k == n { B } else { A }).collect();
        for w in [lyndon, vec![A; n]].map(|ranks| t.order.spelled(&ranks)) {
            let f = (FAST.facts)(&w, t.order.ranks());
            let result = if f.nodes.is_empty() { vec![0; 4 * n - 2] } else { f.nodes };
            for (order, row) in orders(t).iter().flat_map(|order| [0, result.len() - 1, result.len()].map(|row| (order, row))) {
                let want = Want { holds: tree_holds(n, order.ranks(), f.lyndon), numbers: [2 * n - 1, 0], result: &result };
                t.under(order, |t| meet(t, &mut met, "tree", &w, row, &want, engine::tree));
            }
        }
    }
    every_pair(t, "tree", &met, &[13, 6, 7, 8]);
}

/// Tables of ones, which `a` over and over has, and with one entry of 0, the first or the last.
fn wanted(t: &mut Tally) {
    let mut met = Met::new();
    for n in [1, WANTED_LIMIT, WANTED_LIMIT + 1] {
        for zero in [None, Some(0), Some(n - 1)] {
            let mut table = vec![1; n];
            zero.into_iter().for_each(|place| table[place] = 0);
            for (order, room) in orders(t).iter().flat_map(|order| [0, n - 1, n].map(|room| (order, room))) {
                met.insert(wanted_holds(n, order.ranks(), zero.is_none()).and(8, room < n));
                t.under(order, |t| wanted::one(t, &table, zero.is_none(), room, fast::reach));
            }
        }
    }
    every_pair(t, "realise_array", &met, &[13, 11, 12, 8]);
}

/// A table, and how it may be wrong: an entry changed, the last one missing.
fn tables(table: &[u16]) -> [Vec<u16>; 3] {
    let mut wrong = table.to_vec();
    wrong[table.len() / 3] += 1;
    [table.to_vec(), wrong, table[..table.len() - 1].to_vec()]
}

fn parts(t: &mut Tally, met: &mut Met, w: &[u8], f: &Facts, side: Side) {
    let n = w.len();
    for table in tables(side.table(f)) {
        for position in [n / 2, n + 1, usize::MAX] {
            let result = if position > n { vec![0; 3] } else { side.groups(&FAST, w, t.order.ranks(), position) };
            for (order, row) in orders(t).iter().flat_map(|order| [0, result.len()].map(|row| (order, row))) {
                let holds = part_holds(n, order.ranks(), position, &table, side.table(f));
                let want = Want { holds, numbers: [result.len() / 3, 0], result: &result };
                let name = format!("{side:?} at {position}");
                t.under(order, |t| meet(t, met, &name, w, row, &want, |p, order, row| side.call(p, order, &table, position, row)));
            }
        }
    }
}

/// Where `from` and `to` are refused a row with no entry counts as too short.
fn rows(t: &mut Tally, met: &mut Met, g: &Given, f: &Facts, e: Option<&Edit>) {
    let (groups, starts) = e.map_or((1, 1), |e| (e.middle.len(), e.starts.len()));
    for order in orders(t) {
        let g = &Given { order: order.ranks(), ..*g };
        let holds = edit_holds(g, f);
        let want = if holds.none() { Ok(e.unwrap()) } else { Err(holds.first()) };
        for (m, s) in [(groups, starts), (0, starts), (groups, 0), (0, 0)] {
            let all = holds.and(8, m < groups || s < starts);
            met.insert(all);
            t.edit(all.none());
            t.under(&order, |t| edits::one(t, g, want, (m, s)));
        }
    }
}

fn edit(t: &mut Tally, met: &mut Met, w: &[u8], f: &Facts, r: &mut Random) {
    let (n, order) = (w.len(), t.order.clone());
    let (arrays, lasts) = (tables(&f.array), tables(&f.last));
    let stretches =
        [(0, 0), (9, 9 + 600), (7, n), (n, n), (5, 4), (0, n + 1), (n + 1, n + 1), (n, 0), (usize::MAX, usize::MAX), (usize::MAX, 0)];
    for (from, to) in stretches {
        for size in [0, 1, 256, 257, 600] {
            let block = order.spelled(&r.letters(&[A, B], size));
            let given = f.given(w, order.ranks(), from, to, &block);
            let e = (from <= to && to <= n).then(|| (FAST.edit)(&given));
            for (a, l) in [(0, 0), (1, 0), (0, 1), (2, 0), (0, 2), (1, 2)] {
                rows(t, met, &Given { array: &arrays[a], last: &lasts[l], ..given }, f, e.as_ref());
            }
        }
    }
}

pub fn all(t: &mut Tally, r: &mut Random) {
    let order = t.order.clone();
    let long = order.spelled(&r.letters(&[A, B], LIMIT + 1));
    let words = [&long[..13], &long[..LIMIT], &long[..]].map(|w| (w, (FAST.facts)(w, order.ranks())));
    plain(t, &words);
    told(t, &words);
    blocks_read(t, &long);
    marks(t, &long);
    tree(t);
    wanted(t);
    for side in [Side::Prefix, Side::Suffix] {
        let mut met = Met::new();
        for (w, f) in &words[1..] {
            parts(t, &mut met, w, f, side);
        }
        every_pair(t, &format!("{side:?}"), &met, &[13, 1, 2, 5, 8]);
    }
    let mut met = Met::new();
    for (w, f) in &words[1..] {
        t.words += 1;
        edit(t, &mut met, w, f, r);
    }
    every_pair(t, "edit", &met, &[13, 1, 2, 3, 4, 5, 8]);
}
