//! What is timed: the engine's calls, and the same ideas in safe Rust, compiled for byte order or for ranks that are looked up.
use crate::engine::{self, Answer, EditAnswer};
use crate::inputs::{END, Framed, LONG, MIDDLE, Pair, START, Stored, UNDER_24};
use crate::order::{Bytes, Looked, Order};
use crate::race::{Call, Contest};
use crate::table::Target;
use crate::{plain, plain_block, plain_compare, plain_edit, plain_memo, plain_text, plain_wanted, plain_words};

pub type OfWord = Contest<Vec<u8>, usize>;
pub type OfEdit = Contest<Stored, EditAnswer>;
pub type OfTable = Contest<Vec<u16>, usize>;
pub type OfBlock = Contest<Framed, [usize; 2]>;
pub type OfPair = Contest<Pair, [usize; 2]>;

/// In place of the mark of a shorter word repeated.
const REPEATED: usize = usize::MAX;

pub const fn contest<I, O>(name: &'static str, engine: Call<I, O>, plain: Call<I, O>, target: Target) -> Contest<I, O> {
    Contest { name, engine, plain, target }
}

pub const fn at_most(most: f64) -> Target {
    Target::everywhere(most)
}

/// The numbers that a call tells, which may not refuse.
pub fn numbers((refusal, numbers): Answer) -> [usize; 2] {
    assert_eq!(refusal, 0);
    numbers
}

pub fn told(answer: Answer) -> usize {
    numbers(answer)[0]
}

/// A mark, or `REPEATED` where 10 refuses the pattern.
pub fn marked(answer: Answer) -> usize {
    if answer.0 == 10 { REPEATED } else { told(answer) }
}

pub fn accepted(answer: EditAnswer) -> EditAnswer {
    assert_eq!(answer.refusal, 0);
    answer
}

pub const FACTOR: Call<Vec<u8>, usize> = |s, order, rows| told(engine::factor(s, order, &mut rows.numbers));
pub const ARRAY: Call<Vec<u8>, usize> = |s, order, rows| told(engine::array(s, order, &mut rows.numbers));
pub const LAST: Call<Vec<u8>, usize> = |s, order, rows| told(engine::last_factors(s, order, &mut rows.numbers));
pub const ROTATION: Call<Vec<u8>, usize> = |s, order, _| marked(engine::least_rotation(s, order));
pub const LISTING: Call<Vec<u8>, usize> = |s, order, rows| told(engine::write_listing(s, order, &mut rows.text));

/// A call by itself: the processor does nothing of the calls before and after beside it.
fn alone<O>(call: impl Fn() -> O) -> O {
    let fence = || unsafe { std::arch::x86_64::_mm_lfence() };
    fence();
    let answer = call();
    fence();
    answer
}

/// The test of 13: the empty string is told of at once, and an empty order is refused by its length.
pub const TEST: [Contest<(), usize>; 1] = [contest(
    "test of 13",
    |_, order, _| alone(|| told(engine::is_lyndon(&[], order))),
    |_, _, _| alone(|| engine::is_lyndon(&[], &[]).1[0]),
    Target::NONE,
)];

const TWO_LETTERS: Target = Target { most: 1.0, families: &["random, two letters"] };

pub const WORDS: [OfWord; 8] = [
    contest("factor", FACTOR, |s, order, rows| plain_words::factor::<Bytes>(s, order, &mut rows.numbers), at_most(1.2)),
    contest("factor, byte by byte", FACTOR, |s, order, rows| plain::factor::<Bytes>(s, order, &mut rows.numbers), TWO_LETTERS),
    contest("lyndon_array", ARRAY, |s, order, rows| plain_memo::array::<Bytes>(s, order, &mut rows.numbers), at_most(1.1)),
    contest("lyndon_array, no memo", ARRAY, |s, order, rows| plain::array::<Bytes>(s, order, &mut rows.numbers), at_most(2.0)),
    contest("last_factors", LAST, |s, order, rows| plain::last_factors::<Bytes>(s, order, &mut rows.numbers), Target::NONE),
    contest("least_rotation", ROTATION, |s, order, _| plain_words::least_rotation::<Bytes>(s, order).unwrap_or(REPEATED), Target::NONE),
    contest(
        "least_rotation, byte by byte",
        ROTATION,
        |s, order, _| plain::least_rotation::<Bytes>(s, order).unwrap_or(REPEATED),
        Target::NONE,
    ),
    contest("write_listing", LISTING, |s, order, rows| plain_text::listing::<Bytes>(s, order, &mut rows.text), at_most(1.2)),
];

/// The most of another order.
const RANKED: Target = at_most(1.3);

/// Under another order, beside Rust that looks ranks up.
pub const RANKED_WORDS: [OfWord; 6] = [
    contest("factor", FACTOR, |s, order, rows| plain_words::factor::<Looked>(s, order, &mut rows.numbers), RANKED),
    contest("lyndon_array", ARRAY, |s, order, rows| plain_memo::array::<Looked>(s, order, &mut rows.numbers), RANKED),
    contest("last_factors", LAST, |s, order, rows| plain::last_factors::<Looked>(s, order, &mut rows.numbers), RANKED),
    contest("least_rotation", ROTATION, |s, order, _| plain_words::least_rotation::<Looked>(s, order).unwrap_or(REPEATED), RANKED),
    contest("write_listing", LISTING, |s, order, rows| plain_text::listing_by_digits::<Looked>(s, order, &mut rows.text), RANKED),
    contest(
        "write_listing, pairs of digits",
        LISTING,
        |s, order, rows| plain_text::listing::<Looked>(s, order, &mut rows.text),
        Target::NONE,
    ),
];

/// On short patterns, where Rust clears no array.
pub const SHORT: [OfWord; 6] = [
    contest("factor", FACTOR, |s, order, rows| plain_words::factor::<Bytes>(s, order, &mut rows.numbers), Target::NONE),
    contest("factor, byte by byte", FACTOR, |s, order, rows| plain::factor::<Bytes>(s, order, &mut rows.numbers), Target::NONE),
    contest("lyndon_array, no memo", ARRAY, |s, order, rows| plain::array::<Bytes>(s, order, &mut rows.numbers), Target::NONE),
    contest("last_factors", LAST, |s, order, rows| plain::last_factors::<Bytes>(s, order, &mut rows.numbers), Target::NONE),
    contest("least_rotation", ROTATION, |s, order, _| plain_words::least_rotation::<Bytes>(s, order).unwrap_or(REPEATED), Target::NONE),
    contest("write_listing", LISTING, |s, order, rows| plain_text::listing::<Bytes>(s, order, &mut rows.text), Target::NONE),
];

type Edit = Call<Stored, EditAnswer>;

pub const AT_START: Edit = |s, order, rows| accepted(engine::edit(&s.at(START, order), &mut rows.records, &mut rows.starts));
pub const IN_MIDDLE: Edit = |s, order, rows| accepted(engine::edit(&s.at(MIDDLE, order), &mut rows.records, &mut rows.starts));
pub const AT_END: Edit = |s, order, rows| accepted(engine::edit(&s.at(END, order), &mut rows.records, &mut rows.starts));

/// Beside Rust that tests both tables.
const fn tested<O: Order>() -> [OfEdit; 3] {
    let start: Edit = |s, order, rows| plain_edit::edit::<O>(&s.at(START, order), &mut rows.records, &mut rows.starts);
    let middle: Edit = |s, order, rows| plain_edit::edit::<O>(&s.at(MIDDLE, order), &mut rows.records, &mut rows.starts);
    let end: Edit = |s, order, rows| plain_edit::edit::<O>(&s.at(END, order), &mut rows.records, &mut rows.starts);
    [
        contest("edit, start", AT_START, start, at_most(1.3)),
        contest("edit, middle", IN_MIDDLE, middle, at_most(1.3)),
        contest("edit, end", AT_END, end, at_most(1.3)),
    ]
}

pub const EDITS: [OfEdit; 3] = tested::<Bytes>();
pub const RANKED_EDITS: [OfEdit; 3] = tested::<Looked>();

/// Beside Rust that believes both tables.
pub const TRUSTED: [OfEdit; 1] = [contest(
    "edit, middle, tables trusted",
    IN_MIDDLE,
    |s, order, rows| plain_edit::trusting::<Bytes>(&s.at(MIDDLE, order), &mut rows.records, &mut rows.starts),
    Target::NONE,
)];

const START_SHORT: Edit = |s, order, rows| plain_edit::edit_short::<Bytes>(&s.at(START, order), &mut rows.records, &mut rows.starts);
const MIDDLE_SHORT: Edit = |s, order, rows| plain_edit::edit_short::<Bytes>(&s.at(MIDDLE, order), &mut rows.records, &mut rows.starts);
const END_SHORT: Edit = |s, order, rows| plain_edit::edit_short::<Bytes>(&s.at(END, order), &mut rows.records, &mut rows.starts);

pub const SHORT_EDITS: [OfEdit; 3] = [
    contest("edit, start", AT_START, START_SHORT, Target::NONE),
    contest("edit, middle", IN_MIDDLE, MIDDLE_SHORT, Target::NONE),
    contest("edit, end", AT_END, END_SHORT, Target::NONE),
];

pub const REALISE: Call<Vec<u16>, usize> = |t, order, rows| told(engine::realise_array(t, order, &mut rows.text));

const fn realised<O: Order>(target: Target) -> [OfTable; 1] {
    let plain: Call<Vec<u16>, usize> = |t, order, rows| plain_wanted::realise::<O>(t, order, &mut rows.text).expect("a table that nests");
    [contest("realise_array", REALISE, plain, target)]
}

pub const TABLES: [OfTable; 1] = realised::<Bytes>(at_most(1.5));
pub const RANKED_TABLES: [OfTable; 1] = realised::<Looked>(RANKED);

pub const WRITE: Call<Framed, [usize; 2]> = |f, _, rows| numbers(engine::write_block(&f.pattern, &mut rows.text));
pub const READ: Call<Framed, [usize; 2]> = |f, _, _| numbers(engine::read_block(&f.block));

pub const BLOCKS: [OfBlock; 3] = [
    contest("write_block", WRITE, |f, _, rows| [plain_block::write(&f.pattern, &mut rows.text), 0], at_most(2.0)),
    contest(
        "write_block, copy_from_slice",
        WRITE,
        |f, _, rows| [plain_block::write_by_slices(&f.pattern, &mut rows.text), 0],
        Target::NONE,
    ),
    contest("read_block", READ, |f, _, _| plain_block::read(&f.block).expect("a block").into(), Target::NONE),
];

pub const COMPARE: Call<Pair, [usize; 2]> = |p, order, _| numbers(engine::compare(&p.first, &p.second, order));

const fn compared<O: Order>(chunks: Target, bytes: Target) -> [OfPair; 2] {
    let by_chunks: Call<Pair, _> = |p, order, _| plain_compare::compare_by_chunks::<O>(&p.first, &p.second, order).expect("short strings");
    let by_bytes: Call<Pair, _> = |p, order, _| plain_compare::compare::<O>(&p.first, &p.second, order).expect("short strings");
    [contest("compare", COMPARE, by_chunks, chunks), contest("compare, byte by byte", COMPARE, by_bytes, bytes)]
}

pub const PAIRS: [OfPair; 2] = compared::<Bytes>(at_most(1.2), Target { most: 1.2, families: UNDER_24 });
pub const RANKED_PAIRS: [OfPair; 2] = compared::<Looked>(Target { most: 1.3, families: LONG }, Target::NONE);
