//! The reach table as one writes it in safe Rust where periodic patterns shall not take a square of their length: words merged from the right, with
//! a memo of agreements already seen, two rows of slots by place. The same step makes the table and tests one.
#![forbid(unsafe_code)]
use crate::order::{Order, Ranks};

/// Slots in a row of the memo: the square of it is the longest pattern for which the time is bounded; the result wants nothing of it.
const SIDE: usize = 128;

/// Of each slot, with the place p that it has: `edge` bytes from p on agree with those from the end of p's word on, and `ext` bytes from p on with those
/// from p + `step` on. A memo of zeros is true.
struct Memo {
    at: [u16; 2 * SIDE],
    edge: [u16; 2 * SIDE],
    step: [u16; 2 * SIDE],
    ext: [u16; 2 * SIDE],
}

/// `old` bytes from a place x on agree with those from the end of its word on; `ours` bytes from i on agree with those from x on.
struct Known {
    old: usize,
    ours: usize,
}

impl Memo {
    const EMPTY: Memo = Memo { at: [0; 2 * SIDE], edge: [0; 2 * SIDE], step: [0; 2 * SIDE], ext: [0; 2 * SIDE] };

    #[inline(always)]
    fn slot(&self, x: usize) -> Option<usize> {
        let has = |&slot: &usize| usize::from(self.at[slot]) == x;
        Some(x % SIDE).filter(has).or_else(|| Some(SIDE + x / SIDE % SIDE).filter(has))
    }

    /// What it tells of i + d, where f bytes from i on agree with those from there on.
    #[inline(always)]
    fn recall(&self, i: usize, d: usize, f: usize) -> Known {
        let Some(slot) = self.slot(i + d) else { return Known { old: 0, ours: f } };
        let old = usize::from(self.edge[slot]);
        let runs_on = f == d && usize::from(self.step[slot]) == d;
        Known { old, ours: if runs_on { d + usize::from(self.ext[slot]) } else { f } }
    }

    /// Keeps of i that e bytes agree with the end of its word, whose last merged word starts d further on.
    #[inline(always)]
    fn keep(&mut self, i: usize, d: usize, e: usize, known: &Known) {
        let slot = if e < SIDE { i % SIDE } else { SIDE + i / SIDE % SIDE };
        self.at[slot] = i as u16;
        self.edge[slot] = e as u16;
        self.step[slot] = d as u16;
        self.ext[slot] = known.ours.max(known.old.min(e)) as u16;
    }
}

/// How many bytes from i and from j on agree, of at most so many; the first `from` do.
#[inline(always)]
fn agreeing(s: &[u8], i: usize, j: usize, from: usize, most: usize) -> usize {
    let mut k = from;
    while k < most && s[i + k] == s[j + k] {
        k += 1;
    }
    k
}

/// Entry i, where the entries behind it are right.
#[inline(always)]
fn reach<O: Order>(s: &[u8], ranks: &Ranks, table: &[u16], i: usize, memo: &mut Memo) -> usize {
    let n = s.len();
    let first = s[i];
    let mut j = i + 1;
    while j < n && O::below(ranks, first, s[j]) {
        j += usize::from(table[j]);
    }
    if n <= j || s[j] != first {
        return j - i;
    }
    let (mut d, mut known, mut agreed) = (0, Known { old: 0, ours: 0 }, 1);
    while j < n {
        let length = usize::from(table[j]);
        let most = length.min(j - i);
        let e = agreeing(s, i, j, agreed.min(most), most);
        let ends = if e < most { O::below(ranks, s[j + e], s[i + e]) } else { length <= most };
        if ends {
            memo.keep(i, d, e, &known);
            return j - i;
        }
        d = j - i;
        known = memo.recall(i, d, e);
        agreed = known.old.min(known.ours);
        j += length;
    }
    n - i
}

#[inline(never)]
pub fn array<O: Order>(s: &[u8], ranks: &Ranks, table: &mut [u16]) -> usize {
    let mut memo = Memo::EMPTY;
    for i in (0..s.len()).rev() {
        table[i] = reach::<O>(s, ranks, table, i, &mut memo) as u16;
    }
    s.len()
}

/// Whether it is the reach table; an entry to the left is looked at once those to its right are found right.
pub fn is_array<O: Order>(s: &[u8], ranks: &Ranks, table: &[u16]) -> bool {
    let mut memo = Memo::EMPTY;
    (0..s.len()).rev().all(|i| usize::from(table[i]) == reach::<O>(s, ranks, table, i, &mut memo))
}
