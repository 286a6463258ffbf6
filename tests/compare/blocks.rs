//! Definite length blocks read and written: every short string, every kind of header, random blocks, each whole, cut and damaged, and patterns
//! of every length. What an accepted block holds is written again, and what was written is read again.
use crate::block_oracle::{extent, read_holds};
use crate::calls;
use crate::engine;
use crate::lent::Lent;
use crate::right::LIMIT;
use crate::short::every_word;
use crate::tally::{Random, Tally, show};

/// The bytes of a block of the longest pattern, whose header has seven.
const ROOM: usize = LIMIT + 7;

/// What a changed or added byte may be: digits, what stands beside them, signs, letters, ends of lines, high bytes.
const ODD: &[u8] = b"#0123456789/:+- a\r\n,\0\x80\xB1\xFF";

/// A block, and its refusal, place and count.
type Example = (&'static [u8], u8, usize, usize);
#[rustfmt::skip]
const EXAMPLES: [Example; 36] = [
    (b"#10", 0, 3, 0), (b"#10\n", 0, 3, 0), (b"#200", 0, 4, 0), (b"#9000000000", 0, 11, 0), (b"#9000000000\n", 0, 11, 0),
    (b"#11a", 0, 3, 1), (b"#11\n", 0, 3, 1), (b"#11\n\n", 0, 3, 1), (b"#13abc", 0, 3, 3), (b"#203abc\n", 0, 4, 3),
    (b"#12#1", 0, 3, 2), (b"#9000000002\r\n", 0, 11, 2), (b"#11\0", 0, 3, 1), (b"#210acbabcabca", 0, 4, 10),
    (b"", 9, 0, 0), (b"#", 9, 0, 0), (b"#1", 9, 0, 0), (b"\n", 9, 0, 0), (b"#0", 9, 0, 0), (b"#0abc\n", 9, 0, 0), (b"#00", 9, 0, 0),
    (b"#10\n\n", 9, 0, 0), (b"#10\r\n", 9, 0, 0), (b"#11", 9, 0, 0), (b"#11ab", 9, 0, 0), (b"#11a\r\n", 9, 0, 0), (b" #11a", 9, 0, 0),
    (b"#21a", 9, 0, 0), (b"#2 1a", 9, 0, 0), (b"#2+1a", 9, 0, 0), (b"#1:aaaaaaaaaa", 9, 0, 0), (b"#a", 9, 0, 0), (b"#:0000000000", 9, 0, 0),
    (b"#516385", 9, 0, 0), (b"#9999999999", 9, 0, 0), (b"#565539abc", 9, 0, 0),
];

fn examples(t: &mut Tally) {
    for (block, refusal, place, count) in EXAMPLES {
        let want = if refusal == 0 { Some((place, count)) } else { None };
        t.equal(&extent(block), &want, || format!("the words of {}", show(block)));
        t.equal(&engine::read_block(block), &(refusal, [place, count]), || format!("read_block of {}", show(block)));
        read(t, block);
    }
}

/// What was written for the bytes of a block, with the block's own digit after the hash mark, its leading zeros and its line feed.
fn restored(written: &[u8], block: &[u8], place: usize, count: usize) -> Vec<u8> {
    let [mark, _, rest @ ..] = written else { return vec![] };
    let zeros = (place + count).saturating_sub(written.len());
    [&[*mark, block[1]], &b"0".repeat(zeros)[..], rest, &block[place + count..]].concat()
}

/// An accepted block, written again.
fn again(t: &mut Tally, block: &[u8], place: usize, count: usize) {
    let mut buffer = vec![0; ROOM];
    let (refusal, numbers) = engine::write_block(&block[place..place + count], &mut buffer);
    buffer.truncate(numbers[0]);
    let case = || format!("the bytes of {} written again: {refusal}, {}", show(block), show(&buffer));
    t.check(refusal == 0 && restored(&buffer, block, place, count) == block, case);
}

fn told(t: &mut Tally, block: &[u8]) {
    t.words += 1;
    let holds = read_holds(block);
    let (place, count) = extent(block).filter(|_| holds.none()).unwrap_or((0, 0));
    let (got, right) = (engine::read_block(block), (holds.first(), [place, count]));
    t.equal(&got, &right, || format!("read_block of {}", show(block)));
    if got == right && holds.none() {
        again(t, block, place, count);
    }
}

/// Bytes that may be a block; they must be as before.
pub fn read(t: &mut Tally, bytes: &[u8]) {
    let block = Lent::holding(bytes);
    told(t, block.contents());
    t.check(block.unchanged(), || format!("read_block of {}: the block was changed", show(bytes)));
}

/// All strings of some letters: to length 5 as they are, to length 6 behind a hash mark.
pub fn short(t: &mut Tally) {
    examples(t);
    for w in every_word(b"#0129\na", 6) {
        if w.len() < 6 {
            read(t, &w);
        }
        read(t, &[b"#", &w[..]].concat());
    }
}

/// A block whose count has this many digits; none where they are too few.
fn block(digits: usize, bytes: &[u8], close: &str) -> Option<Vec<u8>> {
    let count = format!("{:0digits$}", bytes.len());
    (count.len() == digits).then(|| [format!("#{digits}{count}").as_bytes(), bytes, close.as_bytes()].concat())
}

/// The block up to every place.
fn cut(t: &mut Tally, whole: &[u8]) {
    let block = Lent::holding(whole);
    for end in 0..=whole.len() {
        told(t, &block.contents()[..end]);
    }
    t.check(block.unchanged(), || format!("read_block of {}: the block was changed", show(whole)));
}

/// A byte put in at a place, and one changed or taken out there.
fn damaged_at(t: &mut Tally, block: &[u8], place: usize) {
    let (before, behind) = block.split_at(place);
    for odd in ODD {
        read(t, &[before, &[*odd], behind].concat());
        if let [_, rest @ ..] = behind {
            read(t, &[before, &[*odd], rest].concat());
        }
    }
    if let [_, rest @ ..] = behind {
        read(t, &[before, rest].concat());
    }
}

/// Every place of the header, the last two and one more; bytes before the hash mark and behind the end.
fn damaged(t: &mut Tally, r: &mut Random, block: &[u8]) {
    let n = block.len();
    let mut places: Vec<usize> = (0..n.min(12)).collect();
    places.extend([n - 1, n, r.below(n)]);
    for place in places {
        damaged_at(t, block, place);
    }
    for behind in ["\n\n", "\r\n", "\n\r", "\n\n\n", "ab", "#10"] {
        read(t, &[block, behind.as_bytes()].concat());
        read(t, &[behind.as_bytes(), block].concat());
    }
}

/// Counts that the bytes behind them are far too few for, some of which 16 bits take for the right one.
fn short_of_bytes(t: &mut Tally, bytes: &[u8]) {
    let n = bytes.len();
    for count in [n + 1, n + 10, n + 256, n + LIMIT, n + 65_536, n + 131_072, 99_999_999 - n, 999_999_999 - n, 999_999_999] {
        for digits in count.to_string().len()..=9 {
            read(t, &[format!("#{digits}{count:0digits$}").as_bytes(), bytes].concat());
        }
    }
}

/// Blocks with 1 to 9 digits around each number of digits and the longest pattern, whole, cut at every place and damaged.
pub fn headers(t: &mut Tally, r: &mut Random) {
    let long = r.bytes(LIMIT + 1000);
    for n in [0, 1, 2, 9, 10, 11, 99, 100, 999, 1000, 9999, 10_000, LIMIT - 1, LIMIT, LIMIT + 1, LIMIT + 1000] {
        for digits in 1..=9 {
            for close in ["", "\n"] {
                if let Some(block) = block(digits, &long[..n], close) {
                    read(t, &block);
                    cut(t, &block);
                    damaged(t, r, &block);
                }
            }
        }
        short_of_bytes(t, &long[..n]);
    }
}

/// Any bytes, or those that a header and an end are made of.
fn contents(r: &mut Random, n: usize) -> Vec<u8> {
    if r.below(2) == 0 { r.bytes(n) } else { r.letters(b"#0123456789\r\n", n) }
}

pub fn random(t: &mut Tally, r: &mut Random, blocks: usize) {
    for _ in 0..blocks {
        let digits = 1 + r.below(9);
        let most = [10, 40, 40, 40, 300, LIMIT + 1001][r.below(6)].min(10_usize.pow(digits as u32));
        let n = r.below(most);
        let bytes = contents(r, n);
        let whole = block(digits, &bytes, ["", "\n"][r.below(2)]).expect("the digits are enough");
        read(t, &whole);
        if n < 300 {
            cut(t, &whole);
        }
        let place = r.below(whole.len() + 1);
        damaged_at(t, &whole, place);
    }
}

/// What was written for a pattern, read again.
fn round_trip(t: &mut Tally, pattern: &[u8]) {
    let mut buffer = vec![0; ROOM];
    let (written, [size, _]) = engine::write_block(pattern, &mut buffer);
    buffer.truncate(size);
    let (read, [place, count]) = engine::read_block(&buffer);
    let back = buffer.get(place..place.saturating_add(count));
    let case = || format!("{} written and read again: {written}, {read}, {:?}", show(pattern), back.map(show));
    t.check((written, read) == (0, 0) && back == Some(pattern), case);
}

/// Patterns of every length to two over the longest.
pub fn lengths(t: &mut Tally, r: &mut Random) {
    let long = contents(r, LIMIT + 2);
    for n in 0..=LIMIT + 2 {
        t.words += 1;
        let pattern = &long[long.len() - n..];
        calls::write_block(t, pattern);
        if n <= LIMIT {
            round_trip(t, pattern);
        }
    }
}
