//! The inputs of the benchmark: the ten families of tests/compare/families.rs at two lengths, the same with both tables, for the edits, the reach
//! tables of short ones, and beginnings of one of them, as they are, with their blocks or with a byte changed. The families are made of ranks, so
//! that they are of the same kind under every order. What is timed on them is contests.rs's concern.
use crate::engine::Given;
use crate::families::{A, B, families};
use crate::order::{Looked, Ranks};
use crate::plain;
use crate::plain_memo;
use crate::plain_wanted;
use crate::ranks::{Order, three_orders};
use crate::tally::Random;
use std::rc::Rc;

/// A length with its name.
type Size = (&'static str, usize);

/// The longest pattern, and a quarter of it.
pub const SIZE: usize = 16_384;
const QUARTER: usize = 4096;
pub const SIZES: [Size; 2] = [("4,096 bytes", QUARTER), ("16,384 bytes", SIZE)];
/// Their names.
pub const LONG: &[&str] = &[SIZES[0].0, SIZES[1].0];
const SEED: u64 = 20_261_115;
/// The bytes of all words of a random family, as many for each length: a single word would be learnt by heart, as a processor does after some
/// hundred passes over the same 4,096 bytes.
const DRAWN: usize = 64 * SIZE;
/// The ranks of what an edit puts in, a word that no family but the random ones has; it takes as many bytes out.
const BLOCK: &[u8] = &[B, A, A, A, B, A, B, B];

/// Where an edit starts in a pattern of a length.
pub type Place = fn(usize) -> usize;
pub const START: Place = |_| 0;
pub const MIDDLE: Place = |n| (n / 2).min(n - BLOCK.len());
pub const END: Place = |n| n - BLOCK.len();

/// A name and its words.
pub type Family<I> = (&'static str, Vec<I>);

/// Byte order, the reverse order, and one that is drawn.
pub fn orders() -> [Rc<Order>; 3] {
    three_orders(&mut Random::new(SEED))
}

/// A copy of the ranks, of which Rust knows that there are 256.
pub fn ranks(order: &Order) -> Ranks {
    order.ranks().try_into().expect("256 ranks")
}

/// Words of a length; a family without chance has one.
pub fn words(size: usize, order: &Order) -> Vec<Family<Vec<u8>>> {
    let mut random = Random::new(SEED);
    let draws: Vec<_> = (0..DRAWN / size).map(|_| families(size, &mut random)).collect();
    let family = |k: usize| {
        let mut words: Vec<_> = draws.iter().map(|draw| order.spelled(&draw[k].1)).collect();
        words.dedup();
        (draws[0][k].0, words)
    };
    (0..draws[0].len()).map(family).collect()
}

/// A pattern with both tables, and the block of an edit.
pub struct Stored {
    pub pattern: Vec<u8>,
    pub array: Vec<u16>,
    pub last: Vec<u16>,
    block: Vec<u8>,
}

impl Stored {
    fn new(pattern: Vec<u8>, order: &Order) -> Stored {
        let ranks = &ranks(order);
        let (mut array, mut last) = (vec![0; pattern.len()], vec![0; pattern.len()]);
        plain_memo::array::<Looked>(&pattern, ranks, &mut array);
        plain::last_factors::<Looked>(&pattern, ranks, &mut last);
        Stored { pattern, array, last, block: order.spelled(BLOCK) }
    }

    /// The edit at a place.
    pub fn at<'a>(&'a self, place: Place, order: &'a Ranks) -> Given<'a> {
        let from = place(self.pattern.len());
        let Stored { pattern, array, last, block } = self;
        Given { pattern, order, array, last, from, to: from + block.len(), block }
    }
}

pub fn stored(families: Vec<Family<Vec<u8>>>, order: &Order) -> Vec<Family<Stored>> {
    let all = |words: Vec<Vec<u8>>| words.into_iter().map(|w| Stored::new(w, order)).collect();
    families.into_iter().map(|(name, words)| (name, all(words))).collect()
}

/// The reach tables of the families, which have the same in every order.
pub fn wanted() -> Vec<Family<Vec<u16>>> {
    let order = &orders()[0];
    let short = stored(words(plain_wanted::LIMIT, order), order);
    short.into_iter().map(|(name, all)| (name, all.into_iter().map(|s| s.array).collect())).collect()
}

/// A pattern and its definite length block.
pub struct Framed {
    pub pattern: Vec<u8>,
    pub block: Vec<u8>,
}

impl Framed {
    fn new(pattern: &[u8]) -> Framed {
        let count = pattern.len().to_string();
        let block = [format!("#{}{count}", count.len()).as_bytes(), pattern].concat();
        Framed { pattern: pattern.to_vec(), block }
    }
}

/// Two strings that differ in their last byte.
pub struct Pair {
    pub first: Vec<u8>,
    pub second: Vec<u8>,
}

impl Pair {
    fn new(word: &[u8]) -> Pair {
        let mut second = word.to_vec();
        *second.last_mut().expect("a byte to change") ^= 0xFF;
        Pair { first: word.to_vec(), second }
    }
}

const SHORTEST: Size = ("13 bytes", 13);
const SIXTEEN: Size = ("16 bytes", 16);
const MEDIUM: Size = ("256 bytes", 256);
/// The lengths of two strings that are below 24 bytes.
pub const UNDER_24: &[&str] = &[SHORTEST.0, SIXTEEN.0];

/// Beginnings of the longest Fibonacci word.
fn beginnings<I>(sizes: &[Size], order: &Order, input: fn(&[u8]) -> I) -> Vec<Family<I>> {
    let longest = words(SIZE, order);
    let word = first(&longest, "Fibonacci");
    sizes.iter().map(|&(name, size)| (name, vec![input(&word[..size])])).collect()
}

/// Short patterns.
pub fn short(order: &Order) -> Vec<Family<Vec<u8>>> {
    beginnings(&[SHORTEST, ("64 bytes", 64), MEDIUM], order, <[u8]>::to_vec)
}

/// What is copied does not matter, but how much.
pub fn framed() -> Vec<Family<Framed>> {
    beginnings(&[SHORTEST, MEDIUM, SIZES[0], SIZES[1]], &orders()[0], Framed::new)
}

/// What is compared does not matter either.
pub fn pairs(order: &Order) -> Vec<Family<Pair>> {
    beginnings(&[SHORTEST, SIXTEEN, ("24 bytes", 24), ("32 bytes", 32), MEDIUM, SIZES[0], SIZES[1]], order, Pair::new)
}

/// The first word of a family.
pub fn first<'a, I>(families: &'a [Family<I>], name: &str) -> &'a I {
    let (_, words) = families.iter().find(|f| f.0 == name).expect("the family is there");
    &words[0]
}
