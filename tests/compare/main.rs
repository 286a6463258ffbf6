//! Compares every function of the two archives, and what the program `edited` prints, with a program written from the definitions alone, and
//! prints what it ran.
//! The first argument is the seed of the random words. A failed case is printed; the last line counts the parts.
mod block_oracle;
mod blocks;
mod calls;
mod comparisons;
mod edges;
mod edits;
mod engine;
mod families;
mod fast;
mod lent;
mod listed;
mod long;
mod loops;
mod no_order;
mod oracle;
mod orders;
mod periods;
mod ranks;
mod right;
mod sheet;
mod short;
mod steps;
mod tables;
mod tally;
mod turned;
mod wanted;

use ranks::three_orders;
use right::LIMIT;
use std::process::ExitCode;
use tally::{Random, Run};

const SEED: u64 = 20_261_115;

/// Ranks that a signed comparison would turn round. Their bytes turn round by value under the orders that are not byte order.
const TWO: &[u8] = &[0x7F, 0x80];
const THREE: &[u8] = &[0, 0x7F, 0xFF];

fn seed() -> Option<u64> {
    std::env::args().nth(1).map_or(Some(SEED), |word| word.parse().ok())
}

/// All calls on words, and edits.
fn words(run: &mut Run, r: &mut Random) {
    run.part("the trainer's sheet, P1 to P14", sheet::all);
    run.in_byte_order("its pattern in byte order and in the reverse order, literally", sheet::literally);
    run.part("every word over two letters to length 10", |t| short::words(t, TWO, 10));
    run.part("every word over three letters to length 6", |t| short::words(t, THREE, 6));
    run.part("every edit of every two-letter word to length 6, blocks to length 2", |t| short::all_edits(t, TWO, 6, 2));
    run.part("every edit of every three-letter word to length 3, blocks to length 2", |t| short::all_edits(t, THREE, 3, 2));
    run.part("random words to 70 bytes, two edits each", |t| short::random(t, r, 20_000));
    run.part("ten families of 256 bytes, from their phase marks on too", |t| short::medium(t, r, 256));
    run.in_byte_order("ten families of 257 bytes, from their phase marks on too", |t| short::medium(t, r, 257));
    for n in [4097, LIMIT] {
        run.part(&format!("ten families of {n} bytes"), |t| long::words(t, r, n));
    }
    for n in [LIMIT - 1, LIMIT + 1] {
        run.in_byte_order(&format!("ten families of {n} bytes"), |t| long::words(t, r, n));
    }
    run.part("halves of the longest pattern that share all but a byte", long::halves);
    run.part("every two-letter word to length 5 repeated to 48 bytes, a byte changed, added or taken away", |t| loops::short(t, TWO, 5));
    run.part("words repeated to about the longest pattern by every divisor, a byte changed, added or taken away", |t| {
        loops::long(t, r, TWO)
    });
}

/// Steps of several bytes.
fn steps(run: &mut Run, r: &mut Random) {
    run.part("ten families of 2 to 67 bytes and of about larger multiples of sixteen", |t| steps::lengths(t, r));
    run.part("words repeated for about sixteen, 32 or 48 bytes, then a smaller byte, a greater one or the end", |t| {
        steps::agreements(t, r)
    });
    run.part("bytes above the first for about sixteen to 80, then the same, a smaller one or the end", |t| steps::stretches(t, r));
    run.part("the same byte or a smaller one at each place of bytes above it", |t| steps::broken_stretches(t, r));
    run.part("runs of a letter in a word that begins with six to ten of it", |t| steps::runs(t, r));
    run.part("a stretch or a repetition behind up to 140 bytes that have neither", |t| steps::behind_openings(t, r, 8_000));
    run.part("a byte below the first at each place of bytes above it, each larger or smaller by value", |t| turned::stretches(t, r));
    run.part("words repeated for about sixteen, 32 or 48 bytes, then a byte that is above or below, larger or smaller by value", |t| {
        turned::agreements(t, r)
    });
}

/// Periods inside periods.
fn periods(run: &mut Run, r: &mut Random) {
    run.part("reach tables of a^m b a^m b to m = 2,000, a byte changed, between others", |t| periods::two_runs(t, r));
    run.part("reach tables of words whose periods meet modulo 128", |t| periods::same_places(t, r));
    run.part("reach tables of periods inside periods, to 2,000 bytes", |t| periods::nested_periods(t, r, 6_000));
    run.part("reach tables of one letter or a few behind the same word, again and again", |t| periods::spaced_letters(t, r, 4_000));
    run.part("reach tables of eight families to 2,300 bytes, a byte changed", |t| periods::changed_families(t, r, 100));
    run.part("reach tables of a^n b to the longest", |t| periods::one_run(t, r));
    run.part("periodic words of 4,096 bytes to the longest", |t| periods::long(t, r));
}

/// Lent and wanted tables.
fn tables(run: &mut Run, r: &mut Random) {
    run.part("tables with one entry changed or missing, two letters to length 6", |t| tables::wrong(t, TWO, 6));
    run.part("tables with one entry changed or missing, three letters to length 4", |t| tables::wrong(t, THREE, 4));
    run.part("tables of other orders, three letters to length 5", |t| tables::of_other_orders(t, r, THREE, 5));
    run.part("every wanted table to length 6, entries to one past the end and 65535, held to the tables of all patterns", |t| {
        wanted::short(t, 6)
    });
    run.part("wanted tables of random patterns of up to 257 bytes, as they are and with an entry changed", |t| wanted::random(t, r, 4_000));
    run.part("wanted tables of up to 257 entries drawn so that they nest, as they are and with an entry changed", |t| {
        wanted::drawn(t, r, 2_000)
    });
}

fn comparisons(run: &mut Run, r: &mut Random) {
    run.part("two strings compared, literally", comparisons::examples);
    run.part("every two words over two letters to length 7, compared", |t| comparisons::short(t, TWO, 7));
    run.part("every two words over three letters to length 5, compared", |t| comparisons::short(t, THREE, 5));
    run.part("words to 70 bytes that differ at each place, compared", |t| comparisons::places(t, r));
    run.part("a common beginning of each length to 70 and about larger ones, endings of many lengths, compared", |t| {
        comparisons::beginnings(t, r)
    });
    run.part("random pairs with a common beginning of any length, compared", |t| comparisons::random(t, r, 4_000));
    run.part("ten families of about the longest length, compared with beginnings and with a byte changed", |t| comparisons::long(t, r));
}

/// The refusals, and what is an order.
fn refusals(run: &mut Run, r: &mut Random) {
    run.part("the edge of each refusal", |t| edges::all(t, r));
    run.part("two and more refusals at once", |t| orders::all(t, r));
    run.part("every call with ranks that are no order", |t| no_order::all(t, r));
    run.part("each rank made each other, and each two of them exchanged", no_order::changes);
    run.in_byte_order("every call in byte order but for two ranks", |t| turned::exchanges(t, r));
    run.in_byte_order("byte order filled in, and the interface's number", calls::no_pattern);
}

/// Definite length blocks and the edited listing.
fn texts(run: &mut Run, r: &mut Random) {
    let part = "definite length blocks: every string over seven letters to length 5, to 6 behind a hash mark";
    run.in_byte_order(part, blocks::short);
    run.in_byte_order("definite length blocks with every header, cut at every place and damaged", |t| blocks::headers(t, r));
    run.in_byte_order("random definite length blocks, whole, cut and damaged", |t| blocks::random(t, r, 4_000));
    run.in_byte_order("patterns of every length written as blocks and read again", |t| blocks::lengths(t, r));
    let part = "the edited listing: every edit of every two-letter word to length 4, blocks to length 2";
    run.in_byte_order(part, |t| listed::short(t, TWO, 4, 2));
    let part = "the edited listing: every edit of every two-letter Lyndon word to length 3, once to three times, with itself put in";
    run.in_byte_order(part, |t| listed::seams(t, TWO, 3));
    run.in_byte_order("the edited listing of random words to 70 bytes", |t| listed::random(t, r, 1_000));
    for n in [LIMIT - 1, LIMIT] {
        run.in_byte_order(&format!("the edited listing of ten families of {n} bytes"), |t| listed::words(t, r, n));
    }
}

fn main() -> ExitCode {
    let Some(seed) = seed() else {
        eprintln!("the seed is a decimal number");
        return ExitCode::from(2);
    };
    println!("seed {seed}");
    let r = &mut Random::new(seed);
    let mut run = Run::new(three_orders(r));
    for parts in [words, steps, periods, tables, comparisons, refusals, texts] {
        parts(&mut run, r);
    }
    if run.finish() { ExitCode::SUCCESS } else { ExitCode::FAILURE }
}
