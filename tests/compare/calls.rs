//! Compares the calls on one pattern with what is right, each with rows too short, exact and longer.
use crate::block_oracle;
use crate::engine::{self, Answer, Group};
use crate::lent::{Entry, Lent, lengths};
use crate::ranks::BYTE_ORDER;
use crate::right::{Facts, Holds, Right, flat, length_holds, mark_holds, part_holds, pattern_holds, tree_holds};
use crate::tally::{Tally, brief, show};
use std::fmt::Debug;

/// What a call is to answer and to write, where no refusal holds: numbers and result; `holds` are the refusals but for 8.
pub struct Want<'a, T> {
    pub holds: Holds,
    pub numbers: [usize; 2],
    pub result: &'a [T],
}

impl<'a, T> Want<'a, T> {
    fn new(holds: Holds, numbers: [usize; 2], result: &'a [T]) -> Want<'a, T> {
        Want { holds, numbers, result }
    }
}

/// A call with one row, given a pattern, the order and the row: answer and row are compared, and what is read must be as before.
pub fn one<T, C>(t: &mut Tally, name: &str, w: &[u8], length: usize, want: &Want<T>, call: C)
where
    T: Entry + Debug,
    C: Fn(&[u8], &[u8], &mut [T]) -> Answer,
{
    let (pattern, order) = (Lent::holding(w), t.order.clone());
    let mut row = Lent::blank(length);
    let got = call(pattern.contents(), order.ranks(), row.row());
    let number = want.holds.and(8, length < want.result.len()).first();
    let right = if number == 0 { (0, want.numbers) } else { (number, [0, 0]) };
    let case = || format!("{name} of {}, row of {length}", show(w));
    t.equal(&got, &right, case);
    let written = if number == 0 { want.result } else { &[] };
    t.check(row.holds(written), || format!("{}: row {}, want {}, the rest as before", case(), brief(row.contents()), brief(written)));
    t.check(pattern.unchanged() && order.unchanged(), || format!("{}: the pattern or the order was changed", case()));
}

fn rows<T, C>(t: &mut Tally, name: &str, w: &[u8], want: Want<T>, call: C)
where
    T: Entry + Debug,
    C: Fn(&[u8], &[u8], &mut [T]) -> Answer,
{
    for length in lengths(want.result.len()) {
        one(t, name, w, length, &want, &call);
    }
}

/// The same, also with rows about a length that has room for the result of any pattern as long as this one.
fn rows_to<T, C>(t: &mut Tally, name: &str, w: &[u8], room: usize, want: Want<T>, call: C)
where
    T: Entry + Debug,
    C: Fn(&[u8], &[u8], &mut [T]) -> Answer,
{
    for length in [room.saturating_sub(1), room, room + 1] {
        one(t, name, w, length, &want, &call);
    }
    rows(t, name, w, want, call);
}

/// The pattern as a definite length block, which has no order.
pub fn write_block(t: &mut Tally, w: &[u8]) {
    let block = block_oracle::written(w);
    let want = Want::new(length_holds(w.len()), [block.len(), 0], &block);
    rows(t, "write_block", w, want, |pattern, _, row| engine::write_block(pattern, row));
}

/// The calls that are given no pattern: byte order is filled in, and both archives tell the interface's number.
pub fn no_pattern(t: &mut Tally) {
    let want = Want::new(Holds::default(), [256, 0], &BYTE_ORDER);
    rows(t, "byte_order", b"", want, |_, _, row| engine::byte_order(row));
    t.equal(&engine::interfaces(), &[1, 1], || "the interface's number".into());
}

pub fn array(t: &mut Tally, w: &[u8], f: &Facts) {
    let want = Want::new(pattern_holds(w.len(), t.order.ranks()), [w.len(), 0], &f.array);
    rows(t, "lyndon_array", w, want, engine::array);
}

/// The calls that write a row and need no table.
fn writing(t: &mut Tally, w: &[u8], f: &Facts) {
    let (n, order) = (w.len(), t.order.clone());
    let holds = pattern_holds(n, order.ranks());
    rows_to(t, "factor", w, 3 * n, Want::new(holds, [f.groups.len(), 0], &flat(&f.groups)), engine::factor);
    array(t, w, f);
    rows(t, "last_factors", w, Want::new(holds, [n, 0], &f.last), engine::last_factors);
    rows(t, "longest_words", w, Want::new(holds, [f.length, f.starts.len()], &f.starts), engine::longest_words);
    rows_to(t, "write_listing", w, 32 + 20 * n, Want::new(holds, [f.listing.len(), 0], &f.listing), engine::write_listing);
    write_block(t, w);
    rows(t, "tree", w, Want::new(tree_holds(n, order.ranks(), f.lyndon), [f.nodes.len() / 2, 0], &f.nodes), engine::tree);
}

/// A call that tells one or two numbers and writes no row.
fn tell(t: &mut Tally, name: &str, w: &[u8], holds: Holds, numbers: [usize; 2], call: fn(&[u8], &[u8]) -> Answer) {
    let (pattern, order) = (Lent::holding(w), t.order.clone());
    let right = if holds.none() { (0, numbers) } else { (holds.first(), [0, 0]) };
    t.equal(&call(pattern.contents(), order.ranks()), &right, || format!("{name} of {}", show(w)));
    t.check(pattern.unchanged() && order.unchanged(), || format!("{name} of {}: the pattern or the order was changed", show(w)));
}

pub fn least_rotation(t: &mut Tally, w: &[u8], repeated: bool, mark: usize) {
    let holds = mark_holds(w.len(), t.order.ranks(), repeated);
    tell(t, "least_rotation", w, holds, [mark, 0], engine::least_rotation);
}

/// The trigger word of a pattern too long, or under no order, is empty and has no number.
pub fn telling(t: &mut Tally, w: &[u8], f: &Facts) {
    let holds = pattern_holds(w.len(), t.order.ranks());
    tell(t, "is_lyndon", w, holds, [usize::from(f.lyndon), 0], engine::is_lyndon);
    let first = f.starts.first().map_or(0, |&s| usize::from(s));
    let word = if holds.none() { [first, f.length] } else { [0, 0] };
    tell(t, "longest_word", w, Holds::default(), word, |pattern, order| (0, engine::longest_word(pattern, order)));
    least_rotation(t, w, f.repeated, f.mark);
}

#[derive(Clone, Copy, Debug, PartialEq)]
pub enum Side {
    Prefix,
    Suffix,
}

impl Side {
    /// The table that the question asks for.
    pub fn table(self, f: &Facts) -> &[u16] {
        match self {
            Side::Prefix => &f.last,
            Side::Suffix => &f.array,
        }
    }

    /// The groups that answer it; the starts of a suffix's are places in the whole pattern.
    pub fn groups(self, right: &Right, w: &[u8], order: &[u8], position: usize) -> Vec<u16> {
        let shift = |g: Group| Group { start: g.start + position as u16, ..g };
        match self {
            _ if position > w.len() => vec![],
            Side::Prefix => flat(&(right.groups)(&w[..position], order)),
            Side::Suffix => flat(&(right.groups)(&w[position..], order).into_iter().map(shift).collect::<Vec<_>>()),
        }
    }

    pub fn call(self, pattern: &[u8], order: &[u8], table: &[u16], position: usize, row: &mut [u16]) -> Answer {
        match self {
            Side::Prefix => engine::factor_prefix(pattern, order, table, position, row),
            Side::Suffix => engine::factor_suffix(pattern, order, table, position, row),
        }
    }
}

/// The factors of a prefix or a suffix, over a table that may be wrong.
pub fn part(t: &mut Tally, right: &Right, w: &[u8], f: &Facts, side: Side, table: &[u16], position: usize) {
    let holds = part_holds(w.len(), t.order.ranks(), position, table, side.table(f));
    let result = if holds.none() { side.groups(right, w, t.order.ranks(), position) } else { vec![] };
    let lent = Lent::holding(table);
    let name = format!("{side:?} at {position} over a table of {}", table.len());
    let want = Want::new(holds, [result.len() / 3, 0], &result);
    rows(t, &name, w, want, |p, order, row| side.call(p, order, lent.contents(), position, row));
    t.check(lent.unchanged(), || format!("{name} of {}: the table was changed", show(w)));
}

/// Both tables with more entries behind, which no call reads.
pub fn longer(table: &[u16]) -> Vec<u16> {
    [table, &[0, 0xFFFF, 1]].concat()
}

/// All calls on one pattern; the parts at the given positions.
pub fn word(t: &mut Tally, right: &Right, w: &[u8], f: &Facts, positions: &[usize]) {
    t.words += 1;
    writing(t, w, f);
    telling(t, w, f);
    for side in [Side::Prefix, Side::Suffix] {
        let table = side.table(f);
        for &position in positions {
            part(t, right, w, f, side, table, position);
        }
        let middle = w.len() / 2;
        part(t, right, w, f, side, &longer(table), middle);
        if let Some((_, short)) = table.split_last() {
            part(t, right, w, f, side, short, middle);
        }
    }
}
