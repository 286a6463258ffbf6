//! What was run and what went wrong, part by part; and the random numbers.
use crate::ranks::Order;
use std::fmt;
use std::rc::Rc;

/// Failed cases of one part that are printed; the others are only counted.
const SHOWN: usize = 10;

pub struct Tally {
    /// The order that the calls are given.
    pub order: Rc<Order>,
    pub words: usize,
    edits: usize,
    accepted: usize,
    checks: usize,
    failures: usize,
    /// Where a long word is from, since it isn't printed whole.
    pub origin: String,
}

impl Tally {
    fn new(order: Rc<Order>) -> Tally {
        Tally { order, words: 0, edits: 0, accepted: 0, checks: 0, failures: 0, origin: String::new() }
    }

    /// The same tally goes on under another order, and then under the one before.
    pub fn under(&mut self, order: &Rc<Order>, body: impl FnOnce(&mut Tally)) {
        let before = std::mem::replace(&mut self.order, order.clone());
        body(self);
        self.order = before;
    }

    /// How many of so many drawn cases are made: all in byte order, half of them in another.
    pub fn share(&self, count: usize) -> usize {
        if self.order.is_byte_order() { count } else { count / 2 }
    }

    pub fn edit(&mut self, accepted: bool) {
        self.edits += 1;
        self.accepted += usize::from(accepted);
    }

    pub fn check(&mut self, good: bool, case: impl FnOnce() -> String) {
        self.checks += 1;
        if good {
            return;
        }
        self.failures += 1;
        if self.failures <= SHOWN {
            println!("WRONG: {}, {}{}", self.order.name, self.origin, case());
        }
    }

    pub fn equal<T: PartialEq + fmt::Debug>(&mut self, got: &T, want: &T, case: impl FnOnce() -> String) {
        self.check(got == want, || format!("{}: got {got:?}, want {want:?}", case()));
    }
}

/// Counts parts, and prints a line for each. The first of the orders is byte order.
pub struct Run {
    orders: [Rc<Order>; 3],
    passed: usize,
    failed: usize,
}

impl Run {
    pub fn new(orders: [Rc<Order>; 3]) -> Run {
        Run { orders, passed: 0, failed: 0 }
    }

    /// A part under each of the orders.
    pub fn part(&mut self, name: &str, body: impl FnMut(&mut Tally)) {
        self.under(self.orders.len(), name, body);
    }

    /// A part in byte order alone.
    pub fn in_byte_order(&mut self, name: &str, body: impl FnMut(&mut Tally)) {
        self.under(1, name, body);
    }

    fn under(&mut self, orders: usize, name: &str, mut body: impl FnMut(&mut Tally)) {
        let mut t = Tally::new(self.orders[0].clone());
        for order in &self.orders[..orders] {
            t.origin.clear();
            t.under(order, &mut body);
        }
        let Tally { words, edits, accepted, checks, failures, .. } = t;
        let good = failures == 0 && checks > 0;
        let verdict = if good { "ok".to_string() } else { format!("FAILED in {failures}") };
        let under = if orders == 1 { "in byte order" } else { "under three orders" };
        println!("{name}: {words} words, {edits} edits ({accepted} accepted), {checks} checks {under}: {verdict}");
        self.passed += usize::from(good);
        self.failed += usize::from(!good);
    }

    /// Prints the last line; whether nothing failed.
    pub fn finish(&self) -> bool {
        println!("{} passed, {} failed", self.passed, self.failed);
        self.failed == 0
    }
}

/// A word in hexadecimal, in "" so that the empty one is seen; a long one by its beginning.
pub fn show(w: &[u8]) -> String {
    let digits: String = w.iter().take(80).map(|b| format!("{b:02X}")).collect();
    match w.len() {
        0..=80 => format!("\"{digits}\""),
        n => format!("\"{digits}..\" ({n} bytes)"),
    }
}

/// The beginning of a row.
pub fn brief<T: fmt::Debug>(row: &[T]) -> String {
    let more = if row.len() > 40 { " .." } else { "" };
    format!("{:?}{more} ({} entries)", &row[..row.len().min(40)], row.len())
}

/// xorshift64
pub struct Random(u64);

impl Random {
    pub fn new(seed: u64) -> Random {
        let state = seed.wrapping_mul(0x9E37_79B9_7F4A_7C15) ^ 0xD1B5_4A32_D192_ED03;
        Random(if state == 0 { 1 } else { state })
    }

    fn next(&mut self) -> u64 {
        self.0 ^= self.0 << 13;
        self.0 ^= self.0 >> 7;
        self.0 ^= self.0 << 17;
        self.0 >> 16
    }

    /// At least 0, below n.
    pub fn below(&mut self, n: usize) -> usize {
        (self.next() % n as u64) as usize
    }

    /// A letter of each place is one of the given.
    pub fn letters(&mut self, letters: &[u8], length: usize) -> Vec<u8> {
        (0..length).map(|_| letters[self.below(letters.len())]).collect()
    }

    pub fn bytes(&mut self, length: usize) -> Vec<u8> {
        (0..length).map(|_| self.below(256) as u8).collect()
    }
}
