//! Tables that are not the pattern's: one entry changed, at each place and to several values, rows that are too short, and the tables under
//! another order.
use crate::calls::{self, Side};
use crate::edits;
use crate::engine::Given;
use crate::oracle::NAIVE;
use crate::ranks::three_orders;
use crate::right::Facts;
use crate::short::{every_word, facts};
use crate::tally::{Random, Tally};

/// The table with one entry changed, in each way tried.
fn changed(table: &[u16]) -> Vec<Vec<u16>> {
    let mut all = Vec::new();
    for place in 0..table.len() {
        let right = table[place];
        for value in [0, right - 1, right + 1, right ^ 0x100, right | 0x8000, 0xFFFF, table.len() as u16] {
            if value != right {
                let mut wrong = table.to_vec();
                wrong[place] = value;
                all.push(wrong);
            }
        }
    }
    all
}

fn parts(t: &mut Tally, w: &[u8], f: &Facts) {
    for side in [Side::Prefix, Side::Suffix] {
        for table in changed(side.table(f)) {
            for position in 0..=w.len() + 1 {
                calls::part(t, &NAIVE, w, f, side, &table, position);
                calls::part(t, &NAIVE, w, f, side, &calls::longer(&table), position);
            }
        }
        for length in 0..w.len() {
            calls::part(t, &NAIVE, w, f, side, &side.table(f)[..length], 0);
        }
    }
}

fn edit_with(t: &mut Tally, w: &[u8], f: &Facts, array: &[u16], last: &[u16]) {
    let (n, order) = (w.len(), t.order.clone());
    for (from, to, block) in [(0, 0, &w[..0]), (n / 2, n, &[1]), (0, n, w), (n, n, &[0xFF])] {
        edits::compare(t, &NAIVE, f, &Given { array, last, ..f.given(w, order.ranks(), from, to, block) });
    }
}

fn edited(t: &mut Tally, w: &[u8], f: &Facts) {
    for array in changed(&f.array) {
        edit_with(t, w, f, &array, &f.last);
    }
    for last in changed(&f.last) {
        edit_with(t, w, f, &f.array, &last);
    }
    edit_with(t, w, f, &calls::longer(&f.array), &f.last);
    edit_with(t, w, f, &f.array, &calls::longer(&f.last));
    edit_with(t, w, f, &f.last, &f.array);
    for length in 0..w.len() {
        edit_with(t, w, f, &f.array[..length], &f.last);
        edit_with(t, w, f, &f.array, &f.last[..length]);
    }
}

/// The tables that the words have under other orders: they are refused where they differ. Both must come up.
pub fn of_other_orders(t: &mut Tally, r: &mut Random, letters: &[u8], length: usize) {
    let (mut seen, order) = ([0; 2], t.order.clone());
    for other in three_orders(r).iter().filter(|other| other.ranks() != order.ranks()) {
        for w in every_word(&order.spelled(letters), length) {
            t.words += 1;
            let (f, o) = (facts(t, &w), (NAIVE.facts)(&w, other.ranks()));
            seen[usize::from((&f.array, &f.last) == (&o.array, &o.last))] += 1;
            for side in [Side::Prefix, Side::Suffix] {
                (0..=w.len() + 1).for_each(|position| calls::part(t, &NAIVE, &w, &f, side, side.table(&o), position));
            }
            for (array, last) in [(&o.array, &f.last), (&f.array, &o.last), (&o.array, &o.last)] {
                edit_with(t, &w, &f, array, last);
            }
        }
    }
    t.check(seen.iter().all(|&count| count > 0), || format!("other tables, the same tables: {seen:?} words"));
}

pub fn wrong(t: &mut Tally, letters: &[u8], length: usize) {
    for w in every_word(&t.order.spelled(letters), length) {
        t.words += 1;
        let f = facts(t, &w);
        parts(t, &w, &f);
        edited(t, &w, &f);
    }
}
