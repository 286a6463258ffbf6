//! Where each refusal begins, with the number written out.
use crate::block_oracle;
use crate::calls::{self, Side};
use crate::comparisons;
use crate::edits;
use crate::engine::{self, Given, Group};
use crate::families::{A, B};
use crate::fast::{self, FAST};
use crate::loops;
use crate::right::{Facts, LIMIT};
use crate::tally::{Random, Tally, brief, show};
use crate::wanted;

const MAX: usize = usize::MAX;

fn row() -> Vec<u16> {
    vec![0; 3 * (LIMIT + 4)]
}

/// A buffer for every listing.
fn text() -> Vec<u8> {
    vec![0; 32 + 20 * LIMIT]
}

fn says(t: &mut Tally, what: &str, n: usize, got: u8, want: u8) {
    t.equal(&got, &want, || format!("{what}, pattern of {n} bytes"));
}

/// An edit, with plenty of room.
fn edit(t: &mut Tally, f: &Facts, g: &Given, want: u8) {
    let mut middle = vec![Group { start: 0, length: 0, power: 0 }; LIMIT + 4];
    t.equal(&engine::edit(g, &mut middle, &mut row()).refusal, &want, || edits::describe(g));
    if g.pattern.len() <= LIMIT + 1 {
        edits::compare(t, &FAST, f, g);
    } else {
        t.edit(false);
    }
}

/// Every call on a pattern under the order, with room for any result; the tree has a number of its own.
pub fn ordered(t: &mut Tally, w: &[u8], f: &Facts, want: u8, tree: u8) {
    let (n, lent) = (w.len(), t.order.clone());
    let order = lent.ranks();
    t.words += 1;
    says(t, "factor", n, engine::factor(w, order, &mut row()).0, want);
    says(t, "lyndon_array", n, engine::array(w, order, &mut row()).0, want);
    says(t, "last_factors", n, engine::last_factors(w, order, &mut row()).0, want);
    says(t, "longest_words", n, engine::longest_words(w, order, &mut row()).0, want);
    says(t, "write_listing", n, engine::write_listing(w, order, &mut text()).0, want);
    says(t, "compare, first", n, engine::compare(w, &w[..3], order).0, want);
    says(t, "compare, second", n, engine::compare(&w[..3], w, order).0, want);
    says(t, "is_lyndon", n, engine::is_lyndon(w, order).0, want);
    says(t, "least_rotation", n, engine::least_rotation(w, order).0, want);
    says(t, "factor_prefix", n, engine::factor_prefix(w, order, &f.last, 3, &mut row()).0, want);
    says(t, "factor_suffix", n, engine::factor_suffix(w, order, &f.array, 3, &mut row()).0, want);
    says(t, "tree", n, engine::tree(w, order, &mut row()).0, tree);
    let word = if want == 0 { [usize::from(f.starts[0]), f.length] } else { [0, 0] };
    t.equal(&engine::longest_word(w, order), &word, || format!("longest_word, pattern of {n} bytes"));
    edit(t, f, &f.given(w, order, 0, n.min(600), &[]), want);
}

/// 1: the longest pattern accepted, one byte more refused, and lengths that 16 bits take for short ones. The tree has its own limit.
fn pattern(t: &mut Tally, w: &[u8], f: &Facts, want: u8) {
    ordered(t, w, f, want, 6);
    says(t, "write_block", w.len(), engine::write_block(w, &mut text()).0, want);
    says(t, "read_block", w.len(), engine::read_block(&block_oracle::written(w)).0, want);
}

/// 1, of two strings: either is enough, whether they are alike or differ at once.
fn pairs(t: &mut Tally, long: &[u8]) {
    let order = t.order.clone();
    let turned: Vec<u8> = long.iter().map(|b| b ^ 0xFF).collect();
    for (a, b, want) in [
        (0, 0, 0),
        (0, LIMIT, 0),
        (1, LIMIT, 0),
        (LIMIT - 1, LIMIT, 0),
        (LIMIT, LIMIT, 0),
        (0, LIMIT + 1, 1),
        (1, LIMIT + 1, 1),
        (LIMIT, LIMIT + 1, 1),
        (LIMIT + 1, LIMIT + 1, 1),
        (3, 65_536, 1),
        (LIMIT, 65_536 + 3, 1),
        (65_536 + 3, 65_536 + 3, 1),
    ] {
        for second in [long, &turned] {
            let (a, b) = (&long[..a], &second[..b]);
            let got = [engine::compare(a, b, order.ranks()).0, engine::compare(b, a, order.ranks()).0];
            t.equal(&got, &[want; 2], || format!("compare of {} and {} bytes", a.len(), b.len()));
            comparisons::pair(t, a, b);
        }
    }
}

/// 2: the length itself is a position, the next one is none.
fn positions(t: &mut Tally, w: &[u8]) {
    let (n, lent) = (w.len(), t.order.clone());
    let order = lent.ranks();
    let f = (FAST.facts)(w, order);
    t.words += 1;
    for (position, want) in [(0, 0), (n, 0), (n + 1, 2), (65_536, 2), (MAX, 2)] {
        for side in [Side::Prefix, Side::Suffix] {
            let got = side.call(w, order, side.table(&f), position, &mut row()).0;
            says(t, &format!("{side:?} at {position}"), n, got, want);
            calls::part(t, &FAST, w, &f, side, side.table(&f), position);
        }
    }
    let (m, last) = (n / 2, n.saturating_sub(1));
    let accepted = [(0, 0), (0, n), (n, n), (m, m), (last, n)];
    let refused = [(m + 1, m), (n + 1, n), (0, n + 1), (n, n + 1), (n + 1, n + 1), (MAX, MAX), (0, MAX), (MAX, 0), (MAX, n), (0, 65_536)];
    for (from, to) in accepted {
        edit(t, &f, &f.given(w, order, from, to, &[]), 0);
    }
    for (from, to) in refused {
        edit(t, &f, &f.given(w, order, from, to, &[]), 2);
    }
}

/// 3: a block of 256 is accepted. 4: an edited pattern of the greatest length is.
fn blocks(t: &mut Tally, long: &[u8]) {
    let (block, order) = (long.repeat(65_536 / LIMIT), t.order.clone());
    for (n, from, to, size, want) in [
        (0, 0, 0, 256, 0),
        (0, 0, 0, 257, 3),
        (13, 5, 9, 255, 0),
        (13, 5, 9, 256, 0),
        (13, 5, 9, 257, 3),
        (13, 5, 9, 65_536, 3),
        (LIMIT, 0, LIMIT, 256, 0),
        (LIMIT, 0, LIMIT, 257, 3),
        (LIMIT, 17, 17, 0, 0),
        (LIMIT, 17, 17, 1, 4),
        (LIMIT, LIMIT, LIMIT, 1, 4),
        (LIMIT - 1, LIMIT - 1, LIMIT - 1, 1, 0),
        (LIMIT - 1, 0, 0, 2, 4),
        (LIMIT, 100, 356, 256, 0),
        (LIMIT, 100, 355, 256, 4),
        (LIMIT - 256, 9, 9, 256, 0),
        (LIMIT - 255, 9, 9, 256, 4),
        (LIMIT - 255, 9, 10, 256, 0),
    ] {
        let w = &long[..n];
        let f = (FAST.facts)(w, order.ranks());
        edit(t, &f, &f.given(w, order.ranks(), from, to, &block[..size]), want);
    }
}

/// 5: a table of n entries is enough, and only these are read.
fn tables(t: &mut Tally, w: &[u8]) {
    let (n, lent) = (w.len(), t.order.clone());
    let order = lent.ranks();
    let f = (FAST.facts)(w, order);
    let given = f.given(w, order, 0, 1, &[]);
    for (length, want) in [(n - 1, 5), (n, 0), (n + 1, 0), (n + 3, 0)] {
        let cut = |table: &[u16]| calls::longer(table)[..length].to_vec();
        let (array, last) = (cut(&f.array), cut(&f.last));
        let name = format!("a table of {length}");
        says(t, &name, n, engine::factor_prefix(w, order, &last, n, &mut row()).0, want);
        says(t, &name, n, engine::factor_suffix(w, order, &array, 0, &mut row()).0, want);
        edit(t, &f, &Given { array: &array, ..given }, want);
        edit(t, &f, &Given { last: &last, ..given }, want);
    }
}

/// 6: a word of 256 is accepted. 7: the empty one and every other that is no Lyndon word is not.
fn trees(t: &mut Tally) {
    let up = |n: usize| (1..=n).map(|k| if k == n { B } else { A }).collect::<Vec<u8>>();
    let ramp: Vec<u8> = (0..=255).collect();
    let half = up(128).repeat(2);
    #[rustfmt::skip]
    let all = [
        (up(255), 0), (up(256), 0), (ramp, 0), (up(257), 6), (up(LIMIT + 1), 6), (up(65_637), 6), (vec![A; 65_537], 6),
        (vec![], 7), (vec![A], 0), (vec![A, A], 7), (vec![B, A], 7), (vec![A, B], 0), (half, 7), (vec![A; 256], 7),
    ];
    for (ranks, want) in all {
        let (w, order) = (t.order.spelled(&ranks), t.order.clone());
        let got = engine::tree(&w, order.ranks(), &mut row()).0;
        t.equal(&got, &want, || format!("tree of {}", show(&w)));
        if w.len() <= 257 {
            calls::word(t, &FAST, &w, &(FAST.facts)(&w, order.ranks()), &[]);
        }
    }
}

/// 8: the exact row is enough, one entry less is not.
fn rows(t: &mut Tally) {
    let lent = t.order.clone();
    let (w, word, order) = (&lent.spelled(b"acbabcabcabac")[..], &lent.spelled(b"aabab")[..], lent.ranks());
    let f = (FAST.facts)(w, order);
    let mut say = |what: &str, need: usize, call: &dyn Fn(&mut [u16]) -> u8| {
        says(t, what, need, call(&mut vec![0; need]), 0);
        says(t, what, need - 1, call(&mut vec![0; need - 1]), 8);
    };
    say("factor", 9, &|row| engine::factor(w, order, row).0);
    say("lyndon_array", 13, &|row| engine::array(w, order, row).0);
    say("last_factors", 13, &|row| engine::last_factors(w, order, row).0);
    say("longest_words", 1, &|row| engine::longest_words(w, order, row).0);
    say("write_listing", 82, &|row| engine::write_listing(w, order, &mut vec![0; row.len()]).0);
    say("byte_order", 256, &|row| engine::byte_order(&mut vec![0; row.len()]).0);
    say("write_block", 17, &|row| engine::write_block(w, &mut vec![0; row.len()]).0);
    say("realise_array", 6, &|row| engine::realise_array(&[6, 1, 4, 1, 2, 1], order, &mut vec![0; row.len()]).0);
    say("tree", 18, &|row| engine::tree(word, order, row).0);
    say("factor_prefix", 6, &|row| engine::factor_prefix(w, order, &f.last, 9, row).0);
    say("factor_suffix", 3, &|row| engine::factor_suffix(w, order, &f.array, 9, row).0);
    let g = f.given(w, order, 11, 11, &w[..1]);
    let none = Group { start: 0, length: 0, power: 0 };
    say("edit, groups", 2, &|row| engine::edit(&g, &mut vec![none; row.len()], &mut [0; 4]).refusal);
    say("edit, starts", 4, &|row| engine::edit(&g, &mut [none; 2], row).refusal);
}

/// 10: a word twice or three times, or a byte over and over, is refused; once, or with a byte changed, added or taken away, it is not. A word of
/// 3,277 bytes has one too many when it comes five times: it is 1.
fn repeated(t: &mut Tally, long: &[u8]) {
    let half = LIMIT / 2;
    let mut changed = long[..half].repeat(2);
    changed[half + 1000] ^= 0xFF;
    #[rustfmt::skip]
    let all = [
        (vec![], 0), (vec![A], 0), (vec![A, A], 10), (vec![A, B], 0), (b"abab".to_vec(), 10), (b"baab".to_vec(), 0),
        (b"abcabcabc".to_vec(), 10), (b"abcabcab".to_vec(), 0), (b"abcabcabca".to_vec(), 0), (b"abcabdabc".to_vec(), 0),
        (vec![A; LIMIT], 10), (vec![A; LIMIT + 1], 1), (long[..half].repeat(2), 10), (changed, 0), (long[..half - 1].repeat(2), 10),
        (long[..5461].repeat(3), 10), (long[..5461].repeat(3)[1..].to_vec(), 0), (long[..3277].repeat(5), 1), (long[..LIMIT].to_vec(), 0),
    ];
    for (w, want) in all {
        t.equal(&engine::least_rotation(&w, t.order.ranks()).0, &want, || format!("least_rotation of {}", show(&w)));
        loops::mark(t, &w);
    }
}

/// 11: 256 entries are accepted. 12: an entry of 0, one past the end, one that crosses another.
fn wanted_tables(t: &mut Tally) {
    let falling = |n: u16| (1..=n).rev().collect::<Vec<u16>>();
    #[rustfmt::skip]
    let all = [
        (vec![1; 255], 0), (vec![1; 256], 0), (vec![1; 257], 11), (vec![1; 65_537], 11), (vec![0; 256], 12), (vec![0; 257], 11),
        (falling(256), 0), (falling(257), 11), (vec![], 0), (vec![1], 0), (vec![0], 12), (vec![2], 12), (vec![0xFFFF], 12),
        (vec![2, 1], 0), (vec![3, 1], 12), (vec![2, 0], 12), (vec![2, 2], 12), (vec![1, 0xFFFF], 12), (vec![0xFFFF, 1], 12),
        (vec![2, 2, 1], 12), (vec![3, 2, 1], 0), (vec![2, 1, 1], 0), (vec![3, 3, 1, 1], 12), (vec![4, 3, 1, 1], 0),
    ];
    for (table, want) in all {
        t.equal(&engine::realise_array(&table, t.order.ranks(), &mut [0; 260]).0, &want, || format!("realise_array of {}", brief(&table)));
        if want != 11 {
            wanted::one(t, &table, want == 0, table.len(), fast::reach);
        }
    }
}

pub fn all(t: &mut Tally, r: &mut Random) {
    let order = t.order.clone();
    let long = order.spelled(&r.letters(&[A, B], 65_536 + 700));
    for (n, tabled, want) in [(LIMIT - 1, LIMIT - 1, 0), (LIMIT, LIMIT, 0), (LIMIT + 1, LIMIT + 1, 1), (65_536, 9, 1), (long.len(), 700, 1)]
    {
        pattern(t, &long[..n], &(FAST.facts)(&long[..tabled], order.ranks()), want);
    }
    pairs(t, &long);
    for n in [0, 1, 13, LIMIT] {
        positions(t, &long[..n]);
    }
    blocks(t, &long[..LIMIT]);
    wanted_tables(t);
    tables(t, &long[..13]);
    tables(t, &long[..LIMIT]);
    trees(t);
    rows(t);
    repeated(t, &long);
}
