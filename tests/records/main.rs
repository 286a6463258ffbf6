//! Tries `lyndon_edit` as a Rust program calls it (`calls.rs`), in byte order and others (`orders.rs`), and compares with the trainer's sheet or
//! with the definitions computed naively (`naive.rs`).
mod calls;
#[allow(dead_code)]
#[path = "../compare/engine.rs"]
mod engine;
mod naive;
mod orders;
use calls::{Edit, holds};
use naive::Answer;
use orders::{Chance, byte_order, no_orders, orders};

#[derive(Default)]
struct Tally {
    passed: u32,
    failed: u32,
}

impl Tally {
    fn check(&mut self, name: &str, what: &str, ok: bool) {
        if ok {
            self.passed += 1;
        } else {
            self.failed += 1;
            println!("failed: {name}, {what}");
        }
    }

    /// An accepted edit in byte order, and with its bytes renamed under other orders.
    fn accepts(&mut self, name: &str, e: &Edit, want: Answer) {
        for (order, ranks) in orders() {
            self.accepts_one(&format!("{name}, {order}"), &e.renamed(&ranks), want.clone());
        }
    }

    /// With rows one too short, exact, and longer, and with longer tables.
    fn accepts_one(&mut self, name: &str, e: &Edit, want: Answer) {
        let (groups, places) = (want.middle.len(), want.starts.len());
        let want = Ok(want);
        self.check(name, "exact rows", holds(e, groups, places, &want));
        self.check(name, "longer rows", holds(e, groups + 3, places + 5, &want));
        self.check(name, "a record or two more", (1..3).all(|k| holds(e, groups + k, places, &want)));
        if groups > 0 {
            self.check(name, "a record less", holds(e, groups - 1, places, &Err(8)));
        }
        if places > 0 {
            self.check(name, "a start less", holds(e, groups, places - 1, &Err(8)));
        }
        let mut longer = e.clone();
        longer.array.extend([0, 9]);
        longer.last.extend([7, 0, 65535]);
        self.check(name, "longer tables", holds(&longer, groups, places, &want));
    }

    /// A refused edit in byte order, and with its bytes renamed under other orders; with what is no order 13 goes before its number.
    fn refuses(&mut self, name: &str, e: &Edit, number: u8) {
        for (order, ranks) in orders() {
            self.refuses_one(&format!("{name}, {order}"), &e.renamed(&ranks), number);
        }
        for (order, ranks) in no_orders() {
            self.refuses_one(&format!("{name}, {order}"), &Edit { order: ranks, ..e.clone() }, 13);
        }
    }

    /// With rows that are long enough for any result and with empty ones.
    fn refuses_one(&mut self, name: &str, e: &Edit, number: u8) {
        self.check(name, "long rows", holds(e, 272, LIMIT, &Err(number)));
        self.check(name, "empty rows", holds(e, 0, 0, &Err(number)));
    }
}

/// The longest pattern, stored or edited.
const LIMIT: usize = 16_384;

const S: &[u8] = b"acbabcabcabac";

/// The edits of the trainer's sheet; the definitions must say the same.
fn sheet(t: &mut Tally) {
    type Line<'a> = (&'a str, &'a [u8], usize, usize, &'a [u8], usize, &'a [[u16; 3]], usize, usize, &'a [u16]);
    let lines: [Line; 7] = [
        ("P5", S, 5, 6, b"b", 1, &[[3, 6, 1]], 9, 6, &[3]),
        ("P6", S, 11, 11, b"a", 3, &[[9, 2, 1], [11, 3, 1]], 13, 3, &[0, 3, 6, 11]),
        ("P7", S, 9, 10, b"", 1, &[[3, 9, 1]], 13, 9, &[3]),
        ("P8", S, 1, 3, b"bac", 0, &[[0, 10, 1]], 9, 10, &[0]),
        ("P9", S, 7, 10, b"", 2, &[[6, 4, 1]], 13, 4, &[6]),
        ("P12", b"aa", 1, 1, b"a", 1, &[[1, 1, 1]], 1, 1, &[0, 1, 2]),
        ("P13", b"aba", 3, 3, b"c", 0, &[[0, 4, 1]], 3, 4, &[0]),
    ];
    for (name, pattern, from, to, block, kept, middle, resume, length, starts) in lines {
        let e = Edit::new(pattern, from, to, block);
        let want = Answer { kept, resume, middle: middle.to_vec(), length, starts: starts.to_vec() };
        t.check(name, "the definitions", e.answer() == want);
        t.accepts(name, &e, want);
    }
}

/// Edits at both ends, of the empty pattern, of the whole pattern, of bytes whose ranks differ as signed numbers, with many groups.
fn places(t: &mut Tally) {
    let falling: Vec<u8> = (0..=255).rev().collect();
    let edits: [(&str, &[u8], usize, usize, &[u8]); 14] = [
        ("nothing changed", S, 5, 5, b""),
        ("inserted at the start", S, 0, 0, b"ab"),
        ("first byte gone", S, 0, 1, b""),
        ("inserted at the end", S, 13, 13, b"ab"),
        ("last byte gone", S, 12, 13, b""),
        ("nothing at the end", S, 13, 13, b""),
        ("whole pattern replaced", S, 0, 13, b"bbaab"),
        ("whole pattern gone", S, 0, 13, b""),
        ("whole pattern put again", S, 0, 13, S),
        ("empty pattern and block", b"", 0, 0, b""),
        ("empty pattern", b"", 0, 0, b"baab"),
        ("empty pattern, falling block", b"", 0, 0, &falling),
        ("7F before 80", b"\x7f", 1, 1, b"\x80"),
        ("80 before 7F", b"\x80", 1, 1, b"\x7f"),
    ];
    for (name, pattern, from, to, block) in edits {
        let e = Edit::new(pattern, from, to, block);
        let want = e.answer();
        t.accepts(name, &e, want);
    }
}

/// The longest pattern, block and edited pattern that are accepted.
fn limits(t: &mut Tally) {
    let (n, all): (usize, Vec<u16>) = (LIMIT, (0..LIMIT as u16).collect());
    let reaching = |resume| Answer { kept: 0, resume, middle: vec![[0, LIMIT as u16, 1]], length: LIMIT, starts: vec![0] };
    t.accepts("the longest, last 256 replaced", &Edit::of_equal(n, n - 256, n, &[b'b'; 256]), reaching(n));
    t.accepts("to the longest by 256 more", &Edit::of_equal(n - 256, n - 256, n - 256, &[b'b'; 256]), reaching(n - 256));
    let same = Answer { kept: n, resume: n, middle: vec![], length: 1, starts: all.clone() };
    t.accepts("the longest, nothing at the end", &Edit::of_equal(n, n, n, b""), same);
    let first = Answer { kept: 0, resume: 1, middle: vec![[0, 1, 1]], length: 1, starts: all };
    t.accepts("the longest, the first replaced", &Edit::of_equal(n, 0, 1, b"b"), first);
    let gone = Answer { kept: 0, resume: n, middle: vec![], length: 0, starts: vec![] };
    t.accepts("the longest gone", &Edit::of_equal(n, 0, n, b""), gone);
    t.refuses("a byte too many", &Edit::of_equal(n + 1, 0, n + 1, b""), 1);
    t.refuses("to one past the end", &Edit::of_equal(n, 0, n + 1, b""), 2);
    t.refuses("a block of 257", &Edit::of_equal(10, 0, 10, &[b'b'; 257]), 3);
    t.refuses("edited to a byte too many", &Edit::of_equal(n - 255, n - 255, n - 255, &[b'b'; 256]), 4);
    t.refuses("edited to a byte too many by one byte", &Edit::of_equal(n, 7, 7, b"a"), 4);
}

/// Stretches that are none, and tables that are not the pattern's.
fn refusals(t: &mut Tally) {
    let max = usize::MAX;
    for pattern in [S, b""] {
        for (from, to) in [(1, 0), (14, 13), (0, 14), (14, 14), (max, max), (0, max), (max, 0), (max - 1, max), (max, max - 1), (1 << 63, 1 << 63)] {
            t.refuses(&format!("{} bytes, {from} to {to}", pattern.len()), &Edit::new(pattern, from, to, b"b"), 2);
        }
    }
    let right = Edit::new(S, 5, 6, b"b");
    let mut wrong = |name: &str, spoil: &dyn Fn(&mut Edit)| {
        let mut e = right.clone();
        spoil(&mut e);
        t.refuses(name, &e, 5);
    };
    wrong("first table an entry short", &|e| e.array.truncate(12));
    wrong("second table an entry short", &|e| e.last.truncate(12));
    wrong("first table empty", &|e| e.array.clear());
    wrong("tables exchanged", &|e| std::mem::swap(&mut e.array, &mut e.last));
    for i in 0..S.len() {
        wrong(&format!("entry {i} of the first table more"), &|e| e.array[i] += 1);
        wrong(&format!("entry {i} of the first table less"), &|e| e.array[i] -= 1);
        wrong(&format!("entry {i} of the second table more"), &|e| e.last[i] += 1);
        wrong(&format!("entry {i} of the second table less"), &|e| e.last[i] -= 1);
    }
    t.check("a right edit", "empty rows", holds(&right, 0, 0, &Err(8)));
}

/// A right edit with what is no order, and with either table of another order.
fn other_orders(t: &mut Tally) {
    for (name, order) in no_orders() {
        t.refuses_one(name, &Edit { order, ..Edit::new(S, 5, 6, b"b") }, 13);
    }
    for (name, ranks) in orders() {
        let right = Edit::under(&ranks, S, 5, 6, b"b");
        t.accepts_one(&format!("{name} of the same bytes"), &right, right.answer());
        for (other, ranks) in orders().into_iter().filter(|(other, _)| *other != name) {
            let Edit { array, last, .. } = Edit::under(&ranks, S, 5, 6, b"b");
            t.refuses_one(&format!("{name}, first table of {other}"), &Edit { array, ..right.clone() }, 5);
            t.refuses_one(&format!("{name}, second table of {other}"), &Edit { last, ..right.clone() }, 5);
        }
    }
}

/// Byte order with two neighbours exchanged, for each two, on a pattern of these two.
fn neighbours(t: &mut Tally) {
    for low in 0..255 {
        let (mut order, high) = (byte_order(), low + 1);
        order.swap(low as usize, high as usize);
        t.check("neighbours exchanged", &low.to_string(), exact(&Edit::under(&order, &[high, low, high, high], 1, 2, &[low, low])));
    }
}

/// Of several refusals that hold the first is answered: each edit here has all the later ones too.
fn first_refusal(t: &mut Tally) {
    let bare = |n, from, to, block: usize| Edit { array: vec![], last: vec![], ..Edit::of_equal(n, from, to, &vec![b'b'; block]) };
    let edits = [
        (1, bare(LIMIT + 1, usize::MAX, 0, 257)),
        (2, bare(LIMIT, 2, 1, 257)),
        (3, bare(LIMIT, 1, 1, 257)),
        (4, bare(LIMIT, 1, 1, 256)),
        (5, bare(LIMIT, 0, 256, 256)),
        (8, Edit::of_equal(LIMIT, 0, 256, &[b'b'; 256])),
    ];
    for (number, e) in edits {
        t.check("the first refusal", &number.to_string(), holds(&e, 0, 0, &Err(number)));
        for (name, order) in no_orders() {
            t.check("the first refusal, 13", name, holds(&Edit { order, ..e.clone() }, 0, 0, &Err(13)));
        }
    }
}

/// All words of at most `n` letters.
fn words(letters: &[u8], n: usize) -> Vec<Vec<u8>> {
    let mut all = vec![vec![]];
    let mut from = 0;
    for _ in 0..n {
        let upto = all.len();
        for i in from..upto {
            all.extend(letters.iter().map(|&b| [&all[i][..], &[b]].concat()).collect::<Vec<_>>());
        }
        from = upto;
    }
    all
}

/// The edit with exact rows.
fn exact(e: &Edit) -> bool {
    let want = e.answer();
    holds(e, want.middle.len(), want.starts.len(), &Ok(want))
}

/// Every edit of every short pattern under each order: a pattern is one check.
fn sweep(t: &mut Tally) {
    for (name, order) in orders() {
        for pattern in words(b"ab", 5) {
            let plain = Edit::under(&order, &pattern, 0, 0, b"");
            let n = pattern.len();
            let every = |from, to| words(b"ab", 2).into_iter().all(|block| exact(&Edit { from, to, block, ..plain.clone() }));
            t.check(&format!("{pattern:?}, {name}"), "every edit", (0..=n).all(|from| (from..=n).all(|to| every(from, to))));
        }
    }
}

/// Random edits, half of them in byte order and each other one under an order of its own.
fn random(t: &mut Tally) {
    let mut chance = Chance(1);
    for i in 0..600 {
        let letters = [2, 3, 256][i % 3];
        let order = if i % 2 == 0 { byte_order() } else { chance.order() };
        let (n, block) = (chance.below(60), chance.below(12));
        let (pattern, block) = (chance.word(n, letters), chance.word(block, letters));
        let from = chance.below(n + 1);
        let e = Edit::under(&order, &pattern, from, from + chance.below(n - from + 1), &block);
        t.check(&format!("{pattern:?}"), "a random edit", exact(&e));
    }
}

fn main() {
    let mut t = Tally::default();
    for part in [sheet, places, limits, refusals, other_orders, neighbours, first_refusal, sweep, random] {
        part(&mut t);
    }
    println!("{} passed, {} failed", t.passed, t.failed);
    std::process::exit((t.failed > 0) as i32);
}
