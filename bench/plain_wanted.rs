//! A pattern for a wanted reach table as one writes it in safe Rust, by the same steps: what the engine is measured against.
//! It refuses what the engine does, without a number. It is not inlined into its caller, as the engine's is not.
#![forbid(unsafe_code)]
use crate::order::{Order, Ranks};

/// The longest wanted table.
pub const LIMIT: usize = 256;

/// Whether each stretch holds its start, lies within the table, and one that starts inside another ends inside it; from the right.
fn nests(table: &[u16]) -> bool {
    for start in (0..table.len()).rev() {
        let end = start + usize::from(table[start]);
        if end == start || table.len() < end {
            return false;
        }
        let mut next = start + 1;
        while next < end {
            next += usize::from(table[next]);
        }
        if next != end {
            return false;
        }
    }
    true
}

/// As ranks, each place gets the number of earlier ones whose stretch ends where its own does, and above that one more than the symbol there.
#[inline(never)]
pub fn realise<O: Order>(table: &[u16], ranks: &Ranks, pattern: &mut [u8]) -> Option<usize> {
    let n = table.len();
    if n > LIMIT || !nests(table) || pattern.len() < n {
        return None;
    }
    let mut ends = [0u16; LIMIT + 1];
    for (start, &length) in table.iter().enumerate() {
        ends[start + usize::from(length)] += 1;
    }
    for start in (0..n).rev() {
        let end = start + usize::from(table[start]);
        ends[end] -= 1;
        let above = if end < n { pattern[end] + 1 } else { 0 };
        pattern[start] = above + ends[end] as u8;
    }
    O::spell(ranks, &mut pattern[..n]);
    Some(n)
}
