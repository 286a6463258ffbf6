//! What the naive and the fast version both answer, and which refusals hold.
use crate::engine::{Given, Group};
use crate::ranks::is_order;

pub const LIMIT: usize = 16_384;
pub const BLOCK_LIMIT: usize = 256;
pub const TREE_LIMIT: usize = 256;
pub const WANTED_LIMIT: usize = 256;

/// What there is to say of a pattern under an order.
#[derive(Clone, Debug, Default, PartialEq)]
pub struct Facts {
    pub groups: Vec<Group>,
    pub array: Vec<u16>,
    pub last: Vec<u16>,
    pub length: usize,
    pub starts: Vec<u16>,
    pub mark: usize,
    pub repeated: bool,
    pub lyndon: bool,
    /// Two numbers a node; empty where there is no tree or the word is too long for one.
    pub nodes: Vec<u16>,
    pub listing: Vec<u8>,
}

impl Facts {
    /// An edit over the pattern's own tables.
    pub fn given<'a>(&'a self, pattern: &'a [u8], order: &'a [u8], from: usize, to: usize, block: &'a [u8]) -> Given<'a> {
        Given { pattern, order, array: &self.array, last: &self.last, from, to, block }
    }
}

/// The answer to an accepted edit.
#[derive(Clone, Debug, PartialEq)]
pub struct Edit {
    pub kept: usize,
    pub resume: usize,
    pub middle: Vec<Group>,
    pub length: usize,
    pub starts: Vec<u16>,
}

/// One version of what is right: of a pattern and an order, and of an edit, whose tables it does not look at.
pub struct Right {
    pub facts: fn(&[u8], &[u8]) -> Facts,
    pub groups: fn(&[u8], &[u8]) -> Vec<Group>,
    pub listing: fn(&[u8], &[u8]) -> Vec<u8>,
    pub edit: fn(&Given) -> Edit,
}

/// Three numbers a group.
pub fn flat(groups: &[Group]) -> Vec<u16> {
    groups.iter().flat_map(|g| [g.start, g.length, g.power]).collect()
}

/// The refusals that hold of a call, as a set of numbers.
#[derive(Clone, Copy, Debug, Default, PartialEq, Eq, Hash)]
pub struct Holds(pub u16);

impl Holds {
    pub fn and(self, number: u8, holds: bool) -> Holds {
        Holds(self.0 | u16::from(holds) << number)
    }

    pub fn none(self) -> bool {
        self.0 == 0
    }

    /// The first that is tested, or 0: 9 and then 13 before all others, and 11 and 12 before 8; the others go in number order.
    pub fn first(self) -> u8 {
        [9, 13, 1, 2, 3, 4, 5, 6, 7, 11, 12, 8, 10].into_iter().find(|n| self.0 >> n & 1 == 1).unwrap_or(0)
    }
}

/// A table row is shorter than n, or one of its first n entries differs from the definition.
fn wrong_table(table: &[u16], right: &[u16]) -> bool {
    (0..right.len()).any(|i| table.get(i) != Some(&right[i]))
}

/// A pattern of n bytes that no order belongs to.
pub fn length_holds(n: usize) -> Holds {
    Holds::default().and(1, n > LIMIT)
}

pub fn order_holds(order: &[u8]) -> Holds {
    Holds::default().and(13, !is_order(order))
}

pub fn pattern_holds(n: usize, order: &[u8]) -> Holds {
    order_holds(order).and(1, n > LIMIT)
}

/// Two strings compared.
pub fn compare_holds(first: usize, second: usize, order: &[u8]) -> Holds {
    pattern_holds(first.max(second), order)
}

/// The phase mark of a pattern, which may be a shorter word repeated.
pub fn mark_holds(n: usize, order: &[u8], repeated: bool) -> Holds {
    pattern_holds(n, order).and(10, repeated)
}

pub fn tree_holds(n: usize, order: &[u8], lyndon: bool) -> Holds {
    order_holds(order).and(6, n > TREE_LIMIT).and(7, !lyndon)
}

/// A wanted table of n entries, which a pattern has or none has.
pub fn wanted_holds(n: usize, order: &[u8], had: bool) -> Holds {
    order_holds(order).and(11, n > WANTED_LIMIT).and(12, !had)
}

/// A question about the prefix or suffix at a position, over a table.
pub fn part_holds(n: usize, order: &[u8], position: usize, table: &[u16], right: &[u16]) -> Holds {
    pattern_holds(n, order).and(2, position > n).and(5, wrong_table(table, right))
}

/// The length of what an edit makes, whatever its positions.
fn edited_length(g: &Given) -> usize {
    let n = g.pattern.len();
    g.from.min(n) + g.block.len() + n.saturating_sub(g.to)
}

/// The edited pattern: the stored one up to `from`, the block, the stored one from `to` on.
pub fn edited(g: &Given) -> Vec<u8> {
    [&g.pattern[..g.from], g.block, &g.pattern[g.to..]].concat()
}

/// The refusals of an edit that concern neither its tables nor its rows.
pub fn shape_holds(g: &Given) -> Holds {
    let n = g.pattern.len();
    pattern_holds(n, g.order).and(2, g.from > g.to || g.to > n).and(3, g.block.len() > BLOCK_LIMIT).and(4, edited_length(g) > LIMIT)
}

pub fn edit_holds(g: &Given, facts: &Facts) -> Holds {
    shape_holds(g).and(5, wrong_table(g.array, &facts.array) || wrong_table(g.last, &facts.last))
}

/// The smallest d for which `from` is below 2 to the power d.
pub fn binary_digits(from: usize) -> usize {
    (0..).find(|&d| from < 1 << d).unwrap()
}
