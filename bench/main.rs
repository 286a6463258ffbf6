//! Times the engine's calls against the same ideas in safe Rust, on 4,096 and 16,384 bytes of ten families, on short patterns and on reach tables of
//! 256 entries. `main time PART` prints a line for each order, size, family and contest, and `main table PART` the tables of all the lines that it
//! reads, from several links of this program. A part is `bytes`, in byte order, `orders`, under two others, or `test`, the test of 13 by itself;
//! where the archives before are linked, also `before`. `main once CONTEST` runs one call of each side on the longest Fibonacci word, its table, or
//! the word and a copy with a byte changed, for a tool that counts instructions.
#[cfg(before)]
mod before;
#[cfg(before)]
mod before_engine;
mod contests;
#[allow(dead_code)]
#[path = "../tests/compare/engine.rs"]
mod engine;
#[path = "../tests/compare/families.rs"]
mod families;
mod inputs;
#[allow(dead_code)]
#[path = "../tests/compare/lent.rs"]
mod lent;
mod order;
mod plain;
mod plain_block;
mod plain_compare;
mod plain_edit;
mod plain_memo;
mod plain_text;
mod plain_wanted;
mod plain_words;
mod race;
#[allow(dead_code)]
#[path = "../tests/compare/ranks.rs"]
mod ranks;
mod table;
#[allow(dead_code)]
#[path = "../tests/compare/tally.rs"]
mod tally;

use contests::{BLOCKS, EDITS, OfEdit, PAIRS, SHORT, SHORT_EDITS, TABLES, TRUSTED, WORDS};
use contests::{RANKED_EDITS, RANKED_PAIRS, RANKED_TABLES, RANKED_WORDS};
use inputs::{Family, SIZE, SIZES, first};
use race::{Contest, race};
use ranks::{BYTE_ORDER, Order};
use std::fmt::Debug;
use std::rc::Rc;
use table::{Least, Page};

/// The two families of which one may take at most so many times as long as the other, for the reach table.
const PERIODIC: [&str; 2] = ["a^m b a^m b", "random bytes"];
const PERIODIC_MOST: f64 = 3.0;

/// Of the tables whose families are lengths.
const SHORT_PATTERNS: &str = "short patterns";
const BLOCKS_BY_LENGTH: &str = "blocks";
const STRINGS: &str = "two strings";
/// Of the table about wanted tables.
const ENTRIES: &str = "256 entries";

const BESIDE_RUST: &str = "engine / Rust";

fn names<I>(families: &[Family<I>]) -> Vec<&'static str> {
    families.iter().map(|f| f.0).collect()
}

fn print<I, O>(page: &Page, size: &str, contests: &[Contest<I, O>], families: &[&str]) {
    let columns: Vec<_> = contests.iter().map(|c| (c.name, c.target)).collect();
    page.print(size, &columns, families);
}

fn growth<I, O>(page: &Page, contests: &[Contest<I, O>], families: &[&str]) {
    let names: Vec<_> = contests.iter().map(|c| c.name).collect();
    page.growth(SIZES, &names, families);
}

fn byte_order() -> Rc<Order> {
    let [bytes, ..] = inputs::orders();
    bytes
}

/// The drawn order, then the reverse.
fn other_orders() -> [Rc<Order>; 2] {
    let [_, reverse, drawn] = inputs::orders();
    [drawn, reverse]
}

/// For calls that take no order: no test is taken off.
fn no_order() -> Order {
    Order::new("no order", &BYTE_ORDER)
}

fn edits() -> Vec<OfEdit> {
    EDITS.into_iter().chain(TRUSTED).collect()
}

/// Called several times a run, of which the least counts: every cell depends on it.
fn time_test(order: &Order) {
    let [size, family, _] = table::TEST;
    race(order, size, &contests::TEST, &[(family, vec![()])]);
}

fn time_bytes() {
    let order = &byte_order();
    for (name, size) in SIZES {
        time_test(order);
        let words = inputs::words(size, order);
        race(order, name, &WORDS, &words);
        time_test(order);
        race(order, name, &edits(), &inputs::stored(words, order));
    }
    let short = inputs::short(order);
    race(order, SHORT_PATTERNS, &SHORT, &short);
    race(order, SHORT_PATTERNS, &SHORT_EDITS, &inputs::stored(short, order));
    race(order, ENTRIES, &TABLES, &inputs::wanted());
    race(&no_order(), BLOCKS_BY_LENGTH, &BLOCKS, &inputs::framed());
    race(order, STRINGS, &PAIRS, &inputs::pairs(order));
}

fn print_bytes(least: &Least) {
    let order = byte_order();
    let page = &Page { least, order: &order.name, sides: BESIDE_RUST };
    let families = names(&inputs::words(SIZE, &order));
    page.print_test();
    for (name, _) in SIZES {
        print(page, name, &WORDS, &families);
        page.beside(name, "lyndon_array", PERIODIC, PERIODIC_MOST);
        print(page, name, &edits(), &families);
    }
    let short = names(&inputs::short(&order));
    print(page, SHORT_PATTERNS, &SHORT, &short);
    print(page, SHORT_PATTERNS, &SHORT_EDITS, &short);
    print(page, ENTRIES, &TABLES, &families);
    let unordered = &Page { least, order: &no_order().name, sides: BESIDE_RUST };
    print(unordered, BLOCKS_BY_LENGTH, &BLOCKS, &names(&inputs::framed()));
    print(page, STRINGS, &PAIRS, &names(&inputs::pairs(&order)));
    growth(page, &WORDS, &families);
    growth(page, &edits(), &families);
}

fn time_orders() {
    for order in &other_orders() {
        for (name, size) in SIZES {
            time_test(order);
            let words = inputs::words(size, order);
            race(order, name, &RANKED_WORDS, &words);
            time_test(order);
            race(order, name, &RANKED_EDITS, &inputs::stored(words, order));
        }
        race(order, ENTRIES, &RANKED_TABLES, &inputs::wanted());
        race(order, STRINGS, &RANKED_PAIRS, &inputs::pairs(order));
    }
}

fn print_orders(least: &Least) {
    for order in &other_orders() {
        let page = &Page { least, order: &order.name, sides: BESIDE_RUST };
        let families = names(&inputs::words(SIZE, order));
        page.print_test();
        for (name, _) in SIZES {
            print(page, name, &RANKED_WORDS, &families);
            print(page, name, &RANKED_EDITS, &families);
        }
        print(page, ENTRIES, &RANKED_TABLES, &families);
        print(page, STRINGS, &RANKED_PAIRS, &names(&inputs::pairs(order)));
    }
}

fn print_tests(least: &Least) {
    for order in inputs::orders() {
        Page { least, order: &order.name, sides: BESIDE_RUST }.print_test();
    }
}

/// Whether there was such a contest.
fn once<I, O: Debug + PartialEq>(contests: &[Contest<I, O>], name: &str, input: &I) -> bool {
    contests.iter().find(|c| c.name == name).map(|c| c.once(input, &BYTE_ORDER)).is_some()
}

fn one_call(name: &str) {
    let order = &byte_order();
    let words = inputs::words(SIZE, order);
    let found = once(&WORDS, name, first(&words, "Fibonacci"))
        || once(&TABLES, name, first(&inputs::wanted(), "Fibonacci"))
        || once(&BLOCKS, name, first(&inputs::framed(), SIZES[1].0))
        || once(&PAIRS, name, first(&inputs::pairs(order), SIZES[1].0))
        || once(&edits(), name, first(&inputs::stored(words, order), "Fibonacci"));
    assert!(found, "no contest {name}");
}

fn read() -> Least {
    table::read(std::io::stdin().lines().map(|line| line.expect("lines of text")))
}

fn main() {
    let arguments: Vec<_> = std::env::args().skip(1).collect();
    match &arguments.iter().map(String::as_str).collect::<Vec<_>>()[..] {
        ["time", "bytes"] => time_bytes(),
        ["table", "bytes"] => print_bytes(&read()),
        ["time", "orders"] => time_orders(),
        ["table", "orders"] => print_orders(&read()),
        ["time", "test"] => inputs::orders().iter().for_each(|order| time_test(order)),
        ["table", "test"] => print_tests(&read()),
        #[cfg(before)]
        ["time", "before"] => before::time(),
        #[cfg(before)]
        ["table", "before"] => before::print(&read()),
        ["once", name] => one_call(name),
        _ => panic!("time PART, table PART or once CONTEST"),
    }
}
