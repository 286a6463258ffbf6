//! Whether `lyndon_edit` answers as it should, with every entry of both rows as it should be.
//! Each row is lent out of a longer one, whose rest must stay. How Rust declares and calls it is in ../compare/engine.rs.
use crate::engine::{self, EditAnswer, Given, Group};
use crate::naive::{self, Answer};
use crate::orders::{byte_order, spelled};

#[derive(Clone)]
pub struct Edit {
    pub pattern: Vec<u8>,
    pub order: Vec<u8>,
    pub array: Vec<u16>,
    pub last: Vec<u16>,
    pub from: usize,
    pub to: usize,
    pub block: Vec<u8>,
}

impl Edit {
    /// Under an order, with both tables as defined.
    pub fn under(order: &[u8], pattern: &[u8], from: usize, to: usize, block: &[u8]) -> Edit {
        let (array, last) = (naive::lyndon_array(pattern, order), naive::last_factors(pattern, order));
        Edit { pattern: pattern.to_vec(), order: order.to_vec(), array, last, from, to, block: block.to_vec() }
    }

    /// In byte order.
    pub fn new(pattern: &[u8], from: usize, to: usize, block: &[u8]) -> Edit {
        Edit::under(&byte_order(), pattern, from, to, block)
    }

    /// Of the letter `a` repeated, in byte order: every entry of both tables is 1.
    pub fn of_equal(n: usize, from: usize, to: usize, block: &[u8]) -> Edit {
        let (order, ones) = (byte_order(), vec![1; n]);
        Edit { pattern: vec![b'a'; n], order, array: ones.clone(), last: ones, from, to, block: block.to_vec() }
    }

    /// The bytes of an edit in byte order taken as ranks of this order: both tables and the answer are the same.
    pub fn renamed(&self, order: &[u8]) -> Edit {
        let (pattern, block) = (spelled(&self.pattern, order), spelled(&self.block, order));
        Edit { pattern, order: order.to_vec(), block, ..self.clone() }
    }

    pub fn answer(&self) -> Answer {
        naive::answer(&self.pattern, &self.order, self.from, self.to, &self.block)
    }

    fn given(&self) -> Given<'_> {
        Given { pattern: &self.pattern, order: &self.order, array: &self.array, last: &self.last, from: self.from, to: self.to, block: &self.block }
    }
}

pub type Outcome = Result<Answer, u8>;

fn flat(want: &Outcome) -> EditAnswer {
    match want {
        Ok(a) => EditAnswer {
            refusal: 0,
            kept: a.kept,
            resume: a.resume,
            groups: a.middle.len(),
            length: a.length,
            starts: a.starts.len(),
        },
        Err(number) => EditAnswer { refusal: *number, kept: 0, resume: 0, groups: 0, length: 0, starts: 0 },
    }
}

/// How many entries lie before each lent row, and how many behind it.
const GUARD: usize = 4;

/// Numbers that no result has in their place.
fn canaries(room: usize) -> Vec<u16> {
    (0..room + 2 * GUARD).map(|i| 65000 - (i % 1000) as u16).collect()
}

/// The longer row, with a result at the front of the lent one, where there is one.
fn after<T: Copy>(row: &[T], result: Option<Vec<T>>) -> Vec<T> {
    let mut row = row.to_vec();
    let result = result.unwrap_or_default();
    row[GUARD..GUARD + result.len()].copy_from_slice(&result);
    row
}

fn starts_after(row: &[u16], want: &Outcome) -> Vec<u16> {
    after(row, want.as_ref().ok().map(|a| a.starts.clone()))
}

/// The call with `room` records and `places` starts lent.
pub fn holds(e: &Edit, room: usize, places: usize, want: &Outcome) -> bool {
    let group = |g: [u16; 3]| Group { start: g[0], length: g[1], power: g[2] };
    let row: Vec<Group> = canaries(room).iter().map(|&c| group([c, c + 1, c + 2])).collect();
    let mut middle = row.clone();
    let mut starts = canaries(places);
    let got = engine::edit(&e.given(), &mut middle[GUARD..GUARD + room], &mut starts[GUARD..GUARD + places]);
    let groups = want.as_ref().ok().map(|a| a.middle.iter().map(|&g| group(g)).collect());
    got == flat(want) && middle == after(&row, groups) && starts == starts_after(&canaries(places), want)
}
