//! Phase marks of words repeated, and of patterns next to them: a byte changed, added or taken away.
use crate::calls;
use crate::fast;
use crate::oracle;
use crate::right::LIMIT;
use crate::short::every_word;
use crate::tally::{Random, Tally, show};

const LONGEST: usize = 48;

/// The mark of a pattern of any length, held to the fast version.
pub fn mark(t: &mut Tally, w: &[u8]) {
    t.words += 1;
    calls::least_rotation(t, w, fast::repeated(w), fast::mark(w, t.order.ranks()));
}

/// The same, held to both versions.
fn naive_mark(t: &mut Tally, w: &[u8]) {
    let order = t.order.clone();
    let naive = (oracle::repeated(w), oracle::mark(w, order.ranks()));
    t.equal(&(fast::repeated(w), fast::mark(w, order.ranks())), &naive, || format!("the fast version of {}", show(w)));
    mark(t, w);
}

/// The pattern with one byte changed.
fn changed(w: &[u8], place: usize, letter: u8) -> Vec<u8> {
    let mut other = w.to_vec();
    other[place] = letter;
    other
}

/// Every word over the letters to a length, once, twice and so on to 48 bytes, and next to it: each byte changed to another letter, one added,
/// one taken away.
pub fn short(t: &mut Tally, letters: &[u8], length: usize) {
    let letters = &t.order.spelled(letters);
    for word in every_word(letters, length).iter().filter(|w| !w.is_empty()) {
        for times in 1..=LONGEST / word.len() {
            let w = word.repeat(times);
            naive_mark(t, &w);
            naive_mark(t, &w[1..]);
            for &letter in letters {
                naive_mark(t, &[&w[..], &[letter]].concat());
                (0..w.len()).filter(|&place| w[place] != letter).for_each(|place| naive_mark(t, &changed(&w, place, letter)));
            }
        }
    }
}

/// Random words of two letters repeated to about the longest pattern, by every divisor of its length, and next to it.
pub fn long(t: &mut Tally, r: &mut Random, letters: &[u8]) {
    let letters = &t.order.spelled(letters);
    for n in LIMIT - 11..=LIMIT + 4 {
        t.origin = format!("{n} bytes: ");
        for size in (1..=n).filter(|size| n % size == 0) {
            let w = r.letters(letters, size).repeat(n / size);
            mark(t, &w);
            mark(t, &w[1..]);
            mark(t, &[&w[..], &w[..1]].concat());
            for _ in 0..4 {
                let place = r.below(n);
                mark(t, &changed(&w, place, letters[usize::from(w[place] == letters[0])]));
            }
        }
    }
}
