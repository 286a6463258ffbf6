//! Two strings compared: the length of their common beginning, and which is smaller. Each pair goes both ways round.
use crate::engine;
use crate::families::families;
use crate::fast;
use crate::lent::Lent;
use crate::oracle;
use crate::right::{LIMIT, compare_holds};
use crate::short::{every_word, random_of};
use crate::tally::{Random, Tally, show};

/// Two strings, their common beginning, and which is smaller.
type Example = (&'static [u8], &'static [u8], [usize; 2]);
#[rustfmt::skip]
const EXAMPLES: [Example; 16] = [
    (b"", b"", [0, 0]), (b"", b"a", [0, 1]), (b"", b"\0", [0, 1]), (b"a", b"a", [1, 0]), (b"a", b"b", [0, 1]), (b"a", b"aa", [1, 1]),
    (b"\x7F", b"\x80", [0, 1]), (b"\xFF", b"\0", [0, 2]), (b"a\x80", b"a\x7F\xFF", [1, 2]), (b"\0", b"\0\0", [1, 1]), (b"b", b"abc", [0, 2]),
    (b"acb", b"abc", [1, 2]), (b"abc", b"abac", [2, 2]), (b"abcab", b"abc", [3, 2]), (b"abcabc", b"abcabd", [5, 1]), (b"abcabc", b"abcabc", [6, 0]),
];

fn swapped([shared, smaller]: [usize; 2]) -> [usize; 2] {
    [shared, [0, 2, 1][smaller]]
}

/// A pair whose numbers, where nothing is refused, are these.
pub fn told(t: &mut Tally, first: &[u8], second: &[u8], numbers: [usize; 2]) {
    t.words += 2;
    let order = t.order.clone();
    let holds = compare_holds(first.len(), second.len(), order.ranks());
    let (refusal, numbers) = if holds.none() { (0, numbers) } else { (holds.first(), [0, 0]) };
    let (a, b) = (Lent::holding(first), Lent::holding(second));
    let case = || format!("compare of {} and {}", show(first), show(second));
    let there = engine::compare(a.contents(), b.contents(), order.ranks());
    t.equal(&there, &(refusal, numbers), case);
    let back = engine::compare(b.contents(), a.contents(), order.ranks());
    t.check(there.1[1] < 3 && back == (there.0, swapped(there.1)), || format!("{}: {there:?}, the other way round {back:?}", case()));
    t.check(a.unchanged() && b.unchanged() && order.unchanged(), || format!("{}: a string or the order was changed", case()));
}

/// A pair of any lengths, held to the fast version.
pub fn pair(t: &mut Tally, first: &[u8], second: &[u8]) {
    told(t, first, second, fast::compared(first, second, t.order.ranks()));
}

/// The same, held to both versions.
fn naive_pair(t: &mut Tally, first: &[u8], second: &[u8]) {
    let order = t.order.clone();
    let naive = oracle::compared(first, second, order.ranks());
    let fast = fast::compared(first, second, order.ranks());
    t.equal(&fast, &naive, || format!("the fast comparison of {} and {}", show(first), show(second)));
    told(t, first, second, naive);
}

/// A pair of words that are given by their ranks, held to both versions.
fn ranked_pair(t: &mut Tally, first: &[u8], second: &[u8]) {
    let [first, second] = [first, second].map(|ranks| t.order.spelled(ranks));
    naive_pair(t, &first, &second);
}

/// The examples as words of ranks: the same numbers under every order.
pub fn examples(t: &mut Tally) {
    for (first, second, numbers) in EXAMPLES {
        let [first, second] = [first, second].map(|ranks| t.order.spelled(ranks));
        let naive = oracle::compared(&first, &second, t.order.ranks());
        t.equal(&naive, &numbers, || format!("the order of {} and {}", show(&first), show(&second)));
        naive_pair(t, &first, &second);
    }
}

/// In byte order the smaller is also the one that Rust takes for it.
pub fn short(t: &mut Tally, letters: &[u8], length: usize) {
    let order = t.order.clone();
    let words = every_word(&order.spelled(letters), length);
    for (k, first) in words.iter().enumerate() {
        for second in &words[k..] {
            naive_pair(t, first, second);
            if order.is_byte_order() {
                let smaller = oracle::compared(first, second, order.ranks())[1] == 1;
                t.equal(&smaller, &(first < second), || format!("{} < {}", show(first), show(second)));
            }
        }
    }
}

/// The rank at a place made each of its neighbours, and changed in its first bit and in all.
fn changed_at(w: &[u8], place: usize) -> [Vec<u8>; 4] {
    let byte = w[place];
    [byte.wrapping_add(1), byte.wrapping_sub(1), byte ^ 0x80, byte ^ 0xFF].map(|other| {
        let mut changed = w.to_vec();
        changed[place] = other;
        changed
    })
}

/// A first difference at each place, before an equal ending and before one that is larger or smaller at each byte; and the string cut there.
pub fn places(t: &mut Tally, r: &mut Random) {
    for n in [1, 2, 15, 16, 17, 31, 32, 33, 47, 48, 49, 63, 64, 65, 70] {
        let w = random_of(r, n);
        for place in 0..n {
            ranked_pair(t, &w, &w[..place]);
            for changed in changed_at(&w, place) {
                ranked_pair(t, &w, &changed);
                ranked_pair(t, &w, &changed[..place + 1]);
                for ending in [0, 0xFF] {
                    ranked_pair(t, &w, &[&changed[..place + 1], &vec![ending; n - place - 1]].concat());
                }
            }
        }
    }
}

/// A common beginning of each length to 70 and about larger ones, and behind it nothing, or a byte that differs from the other string's and endings
/// of lengths about sixteen and its double.
pub fn beginnings(t: &mut Tally, r: &mut Random) {
    let longer = [79, 80, 81, 127, 128, 129, 255, 256, 257];
    let endings: [Option<usize>; 8] = [None, Some(0), Some(1), Some(14), Some(15), Some(16), Some(17), Some(32)];
    for shared in (0..=70).chain(longer) {
        let beginning = random_of(r, shared);
        let ended = |r: &mut Random, first: u8, ending: Option<usize>| match ending {
            None => beginning.clone(),
            Some(more) => [&beginning[..], &[first], &random_of(r, more)].concat(),
        };
        for (a, b) in endings.iter().flat_map(|&a| endings.map(|b| (a, b))) {
            let [below, above] = [[0x7F, 0x80], [0, 0xFF], [0x61, 0x62]][r.below(3)];
            let (first, second) = (ended(r, below, a), ended(r, above, b));
            let told = oracle::compared(&first, &second, t.order.ranks())[0];
            t.equal(&told, &shared, || format!("a common beginning of {shared} bytes"));
            ranked_pair(t, &first, &second);
            ranked_pair(t, &ended(r, above, a), &ended(r, below, b));
        }
    }
}

/// A beginning and two endings: none, a byte, or up to a length; neither needs to differ from the other.
fn drawn(r: &mut Random, most: usize) -> [Vec<u8>; 2] {
    let n = r.below(most + 1);
    let beginning = random_of(r, n);
    [(); 2].map(|()| {
        let more = [0, 1, r.below(9), r.below(most + 1 - n)][r.below(4)];
        let ending = random_of(r, more);
        [&beginning[..], &ending].concat()
    })
}

/// Half of them are short, and some of the last quarter are over the limit.
pub fn random(t: &mut Tally, r: &mut Random, count: usize) {
    let (mut seen, order) = ([0; 5], t.order.clone());
    for k in 0..t.share(count) {
        let most = [70, 70, 1000, LIMIT + LIMIT / 4][k % 4];
        let [first, second] = drawn(r, most).map(|ranks| order.spelled(&ranks));
        t.origin = format!("random pair {k}: ");
        let [shared, smaller] = fast::compared(&first, &second, order.ranks());
        let prefix = smaller != 0 && shared == first.len().min(second.len());
        let kind = if prefix { 3 } else { smaller };
        seen[if LIMIT < first.len().max(second.len()) { 4 } else { kind }] += 1;
        if LIMIT < most { pair(t, &first, &second) } else { naive_pair(t, &first, &second) }
    }
    t.check(seen.iter().all(|&count| count > 0), || format!("equal, first smaller, second, a prefix, refused: {seen:?} pairs"));
}

/// Words beside themselves, their beginnings and endings, and with a byte changed at the front, inside and at the end.
pub fn long(t: &mut Tally, r: &mut Random) {
    let order = t.order.clone();
    for n in [LIMIT - 1, LIMIT, LIMIT + 1] {
        for (family, ranks) in families(n, r) {
            t.origin = format!("{family}, {n} bytes: ");
            let w = order.spelled(&ranks);
            let inside = [r.below(n), r.below(n)];
            for place in [0, 1, n / 2, n - 2, n - 1].into_iter().chain(inside) {
                pair(t, &w, &w[..place]);
                pair(t, &w, &w[place..]);
                pair(t, &w[..place], &w[n - place..]);
                changed_at(&ranks, place).iter().for_each(|changed| pair(t, &w, &order.spelled(changed)));
            }
            pair(t, &w, &w);
        }
    }
}
