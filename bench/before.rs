//! Every call in byte order beside the same call of the archives before, which take no order. What stands for Rust elsewhere is the call before.
use crate::before_engine as old;
use crate::contests::{ARRAY, AT_END, AT_START, COMPARE, FACTOR, IN_MIDDLE, LAST, LISTING, READ, REALISE, ROTATION, WRITE};
use crate::contests::{OfBlock, OfEdit, OfPair, OfTable, OfWord, accepted, at_most, contest, marked, numbers, told};
use crate::engine;
use crate::inputs::{self, END, Family, MIDDLE, SIZE, SIZES, START, Stored};
use crate::race::{Contest, race};
use crate::ranks::Order;
use crate::table::{Least, Page, Target};
use crate::{BLOCKS_BY_LENGTH, ENTRIES, STRINGS, byte_order, names, no_order, time_test};

const MOST: Target = at_most(1.1);

const WORDS: [OfWord; 5] = [
    contest("factor", FACTOR, |s, _, rows| told(old::factor(s, &mut rows.numbers)), MOST),
    contest("lyndon_array", ARRAY, |s, _, rows| told(old::array(s, &mut rows.numbers)), MOST),
    contest("last_factors", LAST, |s, _, rows| told(old::last_factors(s, &mut rows.numbers)), MOST),
    contest("least_rotation", ROTATION, |s, _, _| marked(old::least_rotation(s)), MOST),
    contest("write_listing", LISTING, |s, _, rows| told(old::write_listing(s, &mut rows.text)), MOST),
];

const LONGEST: [Contest<Vec<u8>, [usize; 2]>; 3] = [
    contest(
        "longest_words",
        |s, order, rows| numbers(engine::longest_words(s, order, &mut rows.starts)),
        |s, _, rows| numbers(old::longest_words(s, &mut rows.starts)),
        MOST,
    ),
    contest("longest_word", |s, order, _| engine::longest_word(s, order), |s, _, _| old::longest_word(s), MOST),
    contest("is_lyndon", |s, order, _| numbers(engine::is_lyndon(s, order)), |s, _, _| numbers(old::is_lyndon(s)), MOST),
];

const EDITS: [OfEdit; 3] = [
    contest("edit, start", AT_START, |s, o, rows| accepted(old::edit(&s.at(START, o), &mut rows.records, &mut rows.starts)), MOST),
    contest("edit, middle", IN_MIDDLE, |s, o, rows| accepted(old::edit(&s.at(MIDDLE, o), &mut rows.records, &mut rows.starts)), MOST),
    contest("edit, end", AT_END, |s, o, rows| accepted(old::edit(&s.at(END, o), &mut rows.records, &mut rows.starts)), MOST),
];

fn half(s: &Stored) -> usize {
    s.pattern.len() / 2
}

const PARTS: [Contest<Stored, usize>; 2] = [
    contest(
        "factor_prefix",
        |s, order, rows| told(engine::factor_prefix(&s.pattern, order, &s.last, half(s), &mut rows.numbers)),
        |s, _, rows| told(old::factor_prefix(&s.pattern, &s.last, half(s), &mut rows.numbers)),
        MOST,
    ),
    contest(
        "factor_suffix",
        |s, order, rows| told(engine::factor_suffix(&s.pattern, order, &s.array, half(s), &mut rows.numbers)),
        |s, _, rows| told(old::factor_suffix(&s.pattern, &s.array, half(s), &mut rows.numbers)),
        MOST,
    ),
];

const TREES: [OfWord; 1] = [contest(
    "lyndon_tree",
    |w, order, rows| told(engine::tree(w, order, &mut rows.numbers)),
    |w, _, rows| told(old::tree(w, &mut rows.numbers)),
    MOST,
)];
const TABLES: [OfTable; 1] = [contest("realise_array", REALISE, |t, _, rows| told(old::realise_array(t, &mut rows.text)), MOST)];
const PAIRS: [OfPair; 1] = [contest("compare", COMPARE, |p, _, _| numbers(old::compare(&p.first, &p.second)), MOST)];
const BLOCKS: [OfBlock; 2] = [
    contest("write_block", WRITE, |f, _, rows| numbers(old::write_block(&f.pattern, &mut rows.text)), MOST),
    contest("read_block", READ, |f, _, _| numbers(old::read_block(&f.block)), MOST),
];

const WORDS_TO_256: &str = "words to 256 bytes";

/// The longest Lyndon words of short patterns.
fn lyndon_words(order: &Order) -> Vec<Family<Vec<u8>>> {
    let longest = |word: Vec<u8>| {
        let [start, size] = engine::longest_word(&word, order.ranks());
        word[start..start + size].to_vec()
    };
    let all = |words: Vec<Vec<u8>>| words.into_iter().map(longest).collect();
    inputs::words(256, order).into_iter().map(|(name, words)| (name, all(words))).collect()
}

pub fn time() {
    let order = &byte_order();
    for (name, size) in SIZES {
        time_test(order);
        let words = inputs::words(size, order);
        race(order, name, &WORDS, &words);
        race(order, name, &LONGEST, &words);
        time_test(order);
        let stored = inputs::stored(words, order);
        race(order, name, &PARTS, &stored);
        race(order, name, &EDITS, &stored);
    }
    race(order, WORDS_TO_256, &TREES, &lyndon_words(order));
    race(order, ENTRIES, &TABLES, &inputs::wanted());
    race(order, STRINGS, &PAIRS, &inputs::pairs(order));
    race(&no_order(), BLOCKS_BY_LENGTH, &BLOCKS, &inputs::framed());
}

pub fn print(least: &Least) {
    let (order, none) = (byte_order(), no_order());
    let sides = "engine / engine before";
    let page = &Page { least, order: &order.name, sides };
    let families = names(&inputs::words(SIZE, &order));
    page.print_test();
    for (name, _) in SIZES {
        crate::print(page, name, &WORDS, &families);
        crate::print(page, name, &LONGEST, &families);
        crate::print(page, name, &PARTS, &families);
        crate::print(page, name, &EDITS, &families);
    }
    crate::print(page, WORDS_TO_256, &TREES, &families);
    crate::print(page, ENTRIES, &TABLES, &families);
    crate::print(page, STRINGS, &PAIRS, &names(&inputs::pairs(&order)));
    crate::print(&Page { least, order: &none.name, sides }, BLOCKS_BY_LENGTH, &BLOCKS, &names(&inputs::framed()));
}
