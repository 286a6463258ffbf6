//! Two strings compared as one writes it in safe Rust. `compare_by_chunks` takes sixteen bytes at a time while they are equal; `compare` goes byte
//! by byte. Both refuse what the engine does, without a number, and are not inlined, so that a tool finds them by name.
#![forbid(unsafe_code)]
use crate::inputs::SIZE;
use crate::order::{Order, Ranks};
use std::cmp::Ordering;

const CHUNK: usize = 16;

/// The length of the common beginning.
fn shared(a: &[u8], b: &[u8]) -> usize {
    a.iter().zip(b).take_while(|(x, y)| x == y).count()
}

/// The same, sixteen bytes at a time while they are equal.
pub fn shared_by_chunks(a: &[u8], b: &[u8]) -> usize {
    let (chunks, others) = (a.as_chunks::<CHUNK>().0, b.as_chunks::<CHUNK>().0);
    let equal = CHUNK * chunks.iter().zip(others).take_while(|(x, y)| x == y).count();
    equal + shared(&a[equal..], &b[equal..])
}

/// The common beginning, and which is smaller: 1 the first, 2 the second, 0 neither. What ends there is smaller than what goes on.
fn told<O: Order>(first: &[u8], second: &[u8], ranks: &Ranks, shared: impl Fn(&[u8], &[u8]) -> usize) -> Option<[usize; 2]> {
    if first.len() > SIZE || second.len() > SIZE {
        return None;
    }
    let n = shared(first, second);
    let rank = |s: &[u8]| s.get(n).map(|&byte| O::rank(ranks, byte));
    let smaller = match rank(first).cmp(&rank(second)) {
        Ordering::Equal => 0,
        Ordering::Less => 1,
        Ordering::Greater => 2,
    };
    Some([n, smaller])
}

#[inline(never)]
pub fn compare<O: Order>(first: &[u8], second: &[u8], ranks: &Ranks) -> Option<[usize; 2]> {
    told::<O>(first, second, ranks, shared)
}

#[inline(never)]
pub fn compare_by_chunks<O: Order>(first: &[u8], second: &[u8], ranks: &Ranks) -> Option<[usize; 2]> {
    told::<O>(first, second, ranks, shared_by_chunks)
}
