//! Every short word and every edit of one; random words to 70 bytes. All held to the naive version, the fast one too.
use crate::calls;
use crate::edits;
use crate::engine::Given;
use crate::families::families;
use crate::fast::{self, FAST};
use crate::oracle::{NAIVE, every_split};
use crate::ranks::Order;
use crate::right::{Facts, edit_holds};
use crate::tally::{Random, Tally, show};

/// All words over the letters to a length, shorter ones first.
pub fn every_word(letters: &[u8], length: usize) -> Vec<Vec<u8>> {
    let mut all = vec![vec![]];
    let mut from = 0;
    for _ in 0..length {
        let until = all.len();
        for k in from..until {
            all.extend(letters.iter().map(|&b| [&all[k][..], &[b]].concat()).collect::<Vec<_>>());
        }
        from = until;
    }
    all
}

/// What is right of a word, by both versions.
pub fn facts(t: &mut Tally, w: &[u8]) -> Facts {
    let order = t.order.clone();
    let naive = (NAIVE.facts)(w, order.ranks());
    t.equal(&(FAST.facts)(w, order.ranks()), &naive, || format!("the fast version of {}", show(w)));
    t.equal(&(FAST.groups)(w, order.ranks()), &naive.groups, || format!("the fast groups of {}", show(w)));
    naive
}

/// An edit, which both versions and the call answer.
pub fn edit(t: &mut Tally, f: &Facts, g: &Given) {
    if edit_holds(g, f).none() {
        t.equal(&(FAST.edit)(g), &(NAIVE.edit)(g), || format!("the fast version of an {}", edits::describe(g)));
    }
    edits::compare(t, &NAIVE, f, g);
}

/// Of all splits of the word one alone is into factors, and it is the one answered.
fn one_split(t: &mut Tally, w: &[u8], f: &Facts) {
    let lengths = f.groups.iter().flat_map(|g| vec![usize::from(g.length); usize::from(g.power)]).collect();
    t.equal(&every_split(w, t.order.ranks()), &vec![lengths], || format!("the splits of {}", show(w)));
}

pub fn words(t: &mut Tally, letters: &[u8], length: usize) {
    for w in every_word(&t.order.spelled(letters), length) {
        let f = facts(t, &w);
        one_split(t, &w, &f);
        let positions: Vec<usize> = (0..=w.len() + 1).collect();
        calls::word(t, &NAIVE, &w, &f, &positions);
    }
}

/// Every stretch, also those past the end and from its end to its start, and every block.
pub fn all_edits(t: &mut Tally, letters: &[u8], length: usize, block_length: usize) {
    let (letters, order) = (t.order.spelled(letters), t.order.clone());
    let blocks = every_word(&letters, block_length);
    for w in every_word(&letters, length) {
        t.words += 1;
        let f = facts(t, &w);
        for from in 0..=w.len() + 1 {
            for to in 0..=w.len() + 1 {
                for block in &blocks {
                    edit(t, &f, &f.given(&w, order.ranks(), from, to, block));
                }
            }
        }
    }
}

/// A short word over and over, with a letter changed now and then.
fn nearly_repeated(r: &mut Random, letters: &[u8], length: usize) -> Vec<u8> {
    let size = 1 + r.below(9);
    let word = r.letters(letters, size);
    let mut w: Vec<u8> = word.iter().copied().cycle().take(length).collect();
    for _ in 0..r.below(3) {
        if length > 0 {
            w[r.below(length)] = letters[r.below(letters.len())];
        }
    }
    w
}

/// Letters, and parts of what stands before them.
fn copying_itself(r: &mut Random, letters: &[u8], length: usize) -> Vec<u8> {
    let mut w = r.letters(letters, 2);
    while w.len() < length {
        let start = r.below(w.len());
        let end = start + 1 + r.below(w.len() - start);
        let part = w[start..end].to_vec();
        w.extend(part);
        w.extend(r.letters(letters, 1));
    }
    w.truncate(length);
    w
}

/// A word of ranks.
pub fn random_word(r: &mut Random) -> Vec<u8> {
    let length = r.below(71);
    random_of(r, length)
}

/// A word of so many ranks.
pub fn random_of(r: &mut Random, length: usize) -> Vec<u8> {
    let all: Vec<u8> = (0..=255).collect();
    let letters: &[u8] = [&[0x7F, 0x80][..], &[0, 0x7F, 0xFF], &[0x61, 0x62, 0x63, 0x64], &all][r.below(4)];
    match r.below(3) {
        0 => r.letters(letters, length),
        1 => nearly_repeated(r, letters, length),
        _ => copying_itself(r, letters, length),
    }
}

/// A part of the word, letters of it, or any bytes.
pub fn random_block(r: &mut Random, w: &[u8]) -> Vec<u8> {
    let size = if r.below(20) == 0 { r.below(71) } else { r.below(7) };
    if w.is_empty() || r.below(6) == 0 {
        return r.bytes(size);
    }
    if r.below(2) == 0 {
        let start = r.below(w.len());
        return w[start..w.len().min(start + size)].to_vec();
    }
    r.letters(w, size)
}

/// Mostly from a place to one at or behind it; the places run one past the end.
pub fn random_stretch(r: &mut Random, n: usize) -> (usize, usize) {
    let (a, b) = (r.below(n + 1), r.below(n + 1));
    match r.below(20) {
        0 => (b, r.below(n + 2)),
        1..=9 => (a, n.min(a + r.below(4))),
        _ => (a.min(b), a.max(b)),
    }
}

/// All calls at some positions, and some edits.
fn sampled(t: &mut Tally, r: &mut Random, w: &[u8], edits: usize) {
    let (f, order) = (facts(t, w), t.order.clone());
    let positions = [r.below(w.len() + 2), r.below(w.len() + 1)];
    calls::word(t, &NAIVE, w, &f, &positions);
    for _ in 0..edits {
        let (from, to) = random_stretch(r, w.len());
        let block = random_block(r, w);
        edit(t, &f, &f.given(w, order.ranks(), from, to, &block));
    }
}

/// The word from its phase mark on: a Lyndon word, unless it is a shorter one repeated.
fn rotated(mut w: Vec<u8>, order: &Order) -> Vec<u8> {
    let mark = fast::mark(&w, order.ranks());
    w.rotate_left(mark);
    w
}

pub fn random(t: &mut Tally, r: &mut Random, count: usize) {
    let order = t.order.clone();
    for _ in 0..t.share(count) {
        let w = order.spelled(&random_word(r));
        let w = if r.below(4) == 0 { rotated(w, &order) } else { w };
        sampled(t, r, &w, 2);
    }
}

/// Ten families, as they are and from their phase marks on, around the longest word that has a tree.
pub fn medium(t: &mut Tally, r: &mut Random, n: usize) {
    for (family, w) in families(n, r) {
        t.origin = format!("{family}, {n} bytes: ");
        let (w, order) = (t.order.spelled(&w), t.order.clone());
        sampled(t, r, &w, 3);
        sampled(t, r, &rotated(w, &order), 3);
    }
}
