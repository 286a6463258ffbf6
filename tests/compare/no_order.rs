//! Ranks that are no order: every call refuses them, with the number written out, whatever else it is given.
use crate::calls;
use crate::comparisons;
use crate::edges;
use crate::edits;
use crate::engine;
use crate::families::{A, B};
use crate::fast::{self, FAST};
use crate::ranks::{Order, is_order, three_orders};
use crate::right::{Facts, LIMIT};
use crate::tally::{Random, Tally};
use crate::wanted;
use std::rc::Rc;

/// Places of an order at which a rank is made that of another.
const PLACES: [usize; 12] = [0, 1, 14, 15, 16, 17, 127, 128, 239, 240, 254, 255];

/// An order with entries missing, with more, and with one rank twice.
fn spoilt(r: &mut Random, name: &str, order: &[u8]) -> Vec<(String, Vec<u8>)> {
    let named = |what: &str, ranks: &[u8]| (format!("{name}, {what}"), ranks.to_vec());
    let mut all = vec![
        named("the last missing", &order[..255]),
        named("the first missing", &order[1..]),
        named("one entry", &order[..1]),
        named("half of it", &order[..128]),
        named("0 behind it", &[order, &[0]].concat()),
        named("its last twice", &[order, &order[255..]].concat()),
        named("its first twice", &[&order[..1], order].concat()),
        named("twice", &order.repeat(2)),
        named("as often as 16 bits take for once", &order.repeat(257)),
    ];
    for place in PLACES {
        for other in [(place + 1) % 256, (place + 255) % 256, (place + 1 + r.below(255)) % 256] {
            let mut ranks = order.to_vec();
            ranks[place] = ranks[other];
            all.push(named(&format!("entry {place} that of {other}"), &ranks));
        }
    }
    all
}

fn no_orders(r: &mut Random) -> Vec<Rc<Order>> {
    let orders = three_orders(r);
    let mut all: Vec<(String, Vec<u8>)> = orders.iter().flat_map(|order| spoilt(r, &order.name, order.ranks())).collect();
    all.push(("nothing".into(), vec![]));
    all.push(("256 times 0".into(), vec![0; 256]));
    all.push(("256 times FF".into(), vec![0xFF; 256]));
    all.push(("256 bytes drawn".into(), r.bytes(256)));
    all.iter().map(|(name, ranks)| Rc::new(Order::new(name.clone(), ranks))).collect()
}

/// Every call, over tables that are right under the part's order.
fn every_call(t: &mut Tally, w: &[u8], f: &Facts) {
    let (n, order) = (w.len(), t.order.clone());
    t.check(!is_order(order.ranks()), || "this is an order".into());
    edges::ordered(t, w, f, 13, 13);
    calls::word(t, &FAST, w, f, &[0, n / 2, n + 1]);
    edits::compare(t, &FAST, f, &f.given(w, order.ranks(), n / 2, n, &w[..1]));
    comparisons::told(t, w, &w[1..], [0, 1]);
    for (table, had) in [(&[][..], true), (&[2, 1], true), (&[1, 2], false), (&[1; 257], true)] {
        t.equal(&engine::realise_array(table, order.ranks(), &mut [0; 260]), &(13, [0, 0]), || "realise_array".into());
        wanted::one(t, table, had, table.len(), fast::reach);
    }
}

pub fn all(t: &mut Tally, r: &mut Random) {
    let order = t.order.clone();
    let long = order.spelled(&r.letters(&[A, B], LIMIT + 1));
    let words = [&order.spelled(b"acbabcabcabac")[..], &long[..3], &long[..]].map(|w| (w.to_vec(), (FAST.facts)(w, order.ranks())));
    for (k, none) in no_orders(r).iter().enumerate() {
        for (w, f) in &words[..if k % 10 == 0 { 3 } else { 2 }] {
            t.under(none, |t| every_call(t, w, f));
        }
    }
}

/// Each rank of the order made each other: refused. Each two of them exchanged: an order, under which their bytes turn round.
pub fn changes(t: &mut Tally) {
    let mut ranks = t.order.ranks().to_vec();
    for place in 0..256 {
        let own = ranks[place];
        for rank in 0..=255 {
            ranks[place] = rank;
            let got = engine::is_lyndon(b"ab", &ranks).0;
            t.equal(&got, &(if rank == own { 0 } else { 13 }), || format!("is_lyndon, rank {rank} at {place}"));
        }
        ranks[place] = own;
        for other in place + 1..256 {
            let pair = [[place as u8], [other as u8]];
            let before = engine::compare(&pair[0], &pair[1], &ranks);
            ranks.swap(place, other);
            let after = engine::compare(&pair[1], &pair[0], &ranks);
            ranks.swap(place, other);
            t.check(before.0 == 0 && before == after, || format!("compare of {pair:?}: {before:?}, with their ranks exchanged {after:?}"));
        }
    }
}
