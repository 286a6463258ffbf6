//! Orders that are byte order but for two ranks, and words in which bytes that are above another by value are below it by rank.
use crate::calls;
use crate::oracle::NAIVE;
use crate::ranks::{BYTE_ORDER, Order};
use crate::short::{self, every_word, random_block, random_stretch};
use crate::steps::{AGREED, PERIODS, examine, lead, period, tail};
use crate::tally::{Random, Tally};
use std::cmp::Ordering::{self, Equal, Greater, Less};
use std::rc::Rc;

/// Byte order with two ranks exchanged.
fn exchanged(first: u8, second: u8) -> Rc<Order> {
    let mut ranks = BYTE_ORDER;
    ranks.swap(usize::from(first), usize::from(second));
    Rc::new(Order::new(format!("byte order with {first} and {second} exchanged"), &ranks))
}

/// All calls on every short word over some bytes, and an edit of each.
fn every_call(t: &mut Tally, r: &mut Random, letters: &[u8]) {
    let order = t.order.clone();
    for w in every_word(letters, 3) {
        let f = short::facts(t, &w);
        calls::word(t, &NAIVE, &w, &f, &[w.len() / 2, w.len()]);
        let ((from, to), block) = (random_stretch(r, w.len()), random_block(r, &w));
        short::edit(t, &f, &f.given(&w, order.ranks(), from, to, &block));
    }
}

/// Every two neighbours exchanged, and others, with a third byte beside them.
pub fn exchanges(t: &mut Tally, r: &mut Random) {
    for first in 0..=254 {
        t.under(&exchanged(first, first + 1), |t| every_call(t, r, &[first, first + 1]));
    }
    for _ in 0..60 {
        let [first, second, third] = [(); 3].map(|()| r.below(256) as u8);
        t.under(&exchanged(first, second), |t| every_call(t, r, &[first, second, third]));
    }
}

/// The ranks that are so beside the rank c, and whose bytes are so beside its byte.
fn beside(order: &Order, c: u8, rank: Ordering, value: Ordering) -> Vec<u8> {
    let byte = |rank: u8| order.spelled(&[rank])[0];
    (0..=255).filter(|&other| other.cmp(&c) == rank && byte(other).cmp(&byte(c)) == value).collect()
}

/// A rank in the middle whose byte is there too, so that there are others on each side of both.
fn middle(r: &mut Random, order: &Order) -> u8 {
    let inside = |b: u8| (0x30..0xD0).contains(&b);
    let all: Vec<u8> = (0..=255).filter(|&rank| inside(rank) && inside(order.spelled(&[rank])[0])).collect();
    all[r.below(all.len())]
}

/// A byte and a stretch of bytes above it, all of which have larger values or all smaller ones, and at each place one below it.
pub fn stretches(t: &mut Tally, r: &mut Random) {
    let order = t.order.clone();
    for (length, offset) in [34, 50].into_iter().flat_map(|length| [0, 1, 8].map(|offset| (length, offset))) {
        for place in 1..=length {
            let c = middle(r, &order);
            let [above, below] = [Greater, Less].map(|rank| [Less, Greater].map(|value| beside(&order, c, rank, value)));
            for (above, below) in above.iter().flat_map(|above| below.iter().map(move |below| (above, below))) {
                if !above.is_empty() && !below.is_empty() {
                    let mut word = [&lead(r, c, offset)[..], &[c], &r.letters(above, length)].concat();
                    word[offset + place] = below[r.below(below.len())];
                    examine(t, &word, r);
                }
            }
        }
    }
}

/// A word, so many bytes of its repetition, and there a byte on each side of the next one, by rank and by value.
pub fn agreements(t: &mut Tally, r: &mut Random) {
    let order = t.order.clone();
    for (length, agreed) in PERIODS.into_iter().flat_map(|length| AGREED.map(|agreed| (length, agreed))) {
        let c = middle(r, &order);
        let word = period(r, c, length);
        let repeated: Vec<u8> = word.iter().copied().cycle().take(length + agreed).collect();
        for (rank, value) in [(Less, Less), (Less, Greater), (Greater, Less), (Greater, Greater), (Equal, Equal)] {
            let others = beside(&order, word[agreed % length], rank, value);
            if !others.is_empty() {
                examine(t, &[&repeated[..], &r.letters(&others, 1), &tail(r, &word)].concat(), r);
            }
        }
    }
}
