//! The definitions, tried out one by one: slow, and right at sight. Nothing here knows how the engine works.
use crate::engine::{Given, Group};
use crate::ranks::below;
use crate::right::{Edit, Facts, Right, TREE_LIMIT, edited};

pub const NAIVE: Right = Right { facts, groups: groups_of, listing, edit };

/// A factor of a pattern: start and length.
type Factor = (usize, usize);

/// The smaller has the byte of the smaller rank at the first difference; a proper prefix is smaller.
fn smaller(a: &[u8], b: &[u8], order: &[u8]) -> bool {
    for k in 0..a.len().min(b.len()) {
        if a[k] != b[k] {
            return below(order, a[k], b[k]);
        }
    }
    a.len() < b.len()
}

/// The length of the longest string that both begin with.
fn shared(a: &[u8], b: &[u8]) -> usize {
    (0..=a.len().min(b.len())).rev().find(|&k| a[..k] == b[..k]).unwrap()
}

/// The length of the common beginning, and which is smaller: 1 the first, 2 the second, 0 where neither is.
pub fn compared(a: &[u8], b: &[u8], order: &[u8]) -> [usize; 2] {
    [shared(a, b), usize::from(smaller(a, b, order)) + 2 * usize::from(smaller(b, a, order))]
}

/// Nonempty, and smaller than each of its nonempty proper suffixes.
pub fn is_lyndon(w: &[u8], order: &[u8]) -> bool {
    !w.is_empty() && (1..w.len()).all(|k| smaller(w, &w[k..], order))
}

/// Lyndon words, none smaller than the next, whose joining is the pattern.
pub fn are_factors(w: &[u8], order: &[u8], lengths: &[usize]) -> bool {
    let mut words = Vec::new();
    let mut start = 0;
    for &length in lengths {
        words.push(&w[start..start + length]);
        start += length;
    }
    start == w.len() && words.iter().all(|f| is_lyndon(f, order)) && words.windows(2).all(|p| !smaller(p[0], p[1], order))
}

/// Every split of a short word that is one into factors. Bit k of `cuts` says whether byte k ends a part.
pub fn every_split(w: &[u8], order: &[u8]) -> Vec<Vec<usize>> {
    if w.is_empty() {
        return vec![vec![]];
    }
    let mut found = Vec::new();
    for cuts in 0..1_u32 << (w.len() - 1) {
        let mut lengths = vec![1];
        for k in 0..w.len() - 1 {
            if cuts >> k & 1 == 1 {
                lengths.push(1);
            } else {
                *lengths.last_mut().unwrap() += 1;
            }
        }
        if are_factors(w, order, &lengths) {
            found.push(lengths);
        }
    }
    found
}

/// The longest prefix that is a Lyndon word, over and over. That these are the factors is looked at afresh each time.
pub fn factors(w: &[u8], order: &[u8]) -> Vec<Factor> {
    let mut found = Vec::new();
    let mut start = 0;
    while start < w.len() {
        let end = (start + 1..=w.len()).rev().find(|&end| is_lyndon(&w[start..end], order)).unwrap();
        found.push((start, end - start));
        start = end;
    }
    let lengths: Vec<usize> = found.iter().map(|f| f.1).collect();
    assert!(are_factors(w, order, &lengths), "the naive split of {w:?} is none: {lengths:?}");
    found
}

/// The longest stretches of equal neighbours among some factors.
fn groups(w: &[u8], factors: &[Factor]) -> Vec<Group> {
    let mut found: Vec<Group> = Vec::new();
    let mut before: Option<&[u8]> = None;
    for &(start, length) in factors {
        let word = &w[start..start + length];
        if before == Some(word) {
            found.last_mut().unwrap().power += 1;
        } else {
            found.push(Group { start: start as u16, length: length as u16, power: 1 });
        }
        before = Some(word);
    }
    found
}

fn groups_of(w: &[u8], order: &[u8]) -> Vec<Group> {
    groups(w, &factors(w, order))
}

/// Entry i: the length of the longest Lyndon substring that starts at i.
pub fn reach(w: &[u8], order: &[u8]) -> Vec<u16> {
    let longest_at = |i: usize| (1..=w.len() - i).rev().find(|&k| is_lyndon(&w[i..i + k], order)).unwrap();
    (0..w.len()).map(|i| longest_at(i) as u16).collect()
}

/// Whether each stretch, entry i being its length from i on, holds its start and ends within the table, and one that starts inside another ends inside it.
pub fn nests(table: &[u16]) -> bool {
    let (n, end) = (table.len(), |i: usize| i + usize::from(table[i]));
    (0..n).all(|i| i < end(i) && end(i) <= n && (i + 1..end(i)).all(|j| end(j) <= end(i)))
}

/// Entry q - 1: the length of the last factor of the first q bytes.
fn prefix_table(w: &[u8], order: &[u8]) -> Vec<u16> {
    (1..=w.len()).map(|q| factors(&w[..q], order).last().unwrap().1 as u16).collect()
}

/// The largest length of a Lyndon substring, and every place where one of that length starts.
fn longest(w: &[u8], order: &[u8]) -> (usize, Vec<u16>) {
    for length in (1..=w.len()).rev() {
        let starts: Vec<u16> = (0..=w.len() - length).filter(|&i| is_lyndon(&w[i..i + length], order)).map(|i| i as u16).collect();
        if !starts.is_empty() {
            return (length, starts);
        }
    }
    (0, vec![])
}

/// The smallest start of a rotation that no other is smaller than.
pub fn mark(w: &[u8], order: &[u8]) -> usize {
    let rotation = |k: usize| [&w[k..], &w[..k]].concat();
    let all: Vec<Vec<u8>> = (0..w.len()).map(rotation).collect();
    (0..w.len()).find(|&k| all.iter().all(|r| !smaller(r, &all[k], order))).unwrap_or(0)
}

/// Whether it is a shorter word, two or more times.
pub fn repeated(w: &[u8]) -> bool {
    (1..w.len()).any(|size| (2..=w.len()).any(|times| size * times == w.len() && w[..size].repeat(times) == w))
}

/// Parent, all of u, all of v, where v is the longest proper suffix that is a Lyndon word.
fn tree(w: &[u8], order: &[u8], start: usize, nodes: &mut Vec<u16>) {
    nodes.extend([start as u16, w.len() as u16]);
    if w.len() > 1 {
        let cut = (1..w.len()).find(|&k| is_lyndon(&w[k..], order)).unwrap();
        tree(&w[..cut], order, start, nodes);
        tree(&w[cut..], order, start + cut, nodes);
    }
}

/// A line of names, then one for each group: start, length, power, the factor's bytes in hexadecimal, and the length of the common beginning of this
/// factor and the next group's, 0 where there is none.
fn listing(w: &[u8], order: &[u8]) -> Vec<u8> {
    let mut text = String::from("start,length,power,word,shared\r\n");
    let groups = groups_of(w, order);
    let word = |g: &Group| &w[usize::from(g.start)..usize::from(g.start + g.length)];
    for (k, g) in groups.iter().enumerate() {
        let Group { start, length, power } = g;
        let digits: String = word(g).iter().map(|byte| format!("{byte:02X}")).collect();
        let shared = groups.get(k + 1).map_or(0, |next| shared(word(g), word(next)));
        text += &format!("{start},{length},{power},{digits},{shared}\r\n");
    }
    text.into_bytes()
}

fn facts(w: &[u8], order: &[u8]) -> Facts {
    let (length, starts) = longest(w, order);
    let lyndon = is_lyndon(w, order);
    let mut nodes = Vec::new();
    if lyndon && w.len() <= TREE_LIMIT {
        tree(w, order, 0, &mut nodes);
    }
    let (groups, listing, mark) = (groups_of(w, order), listing(w, order), mark(w, order));
    let (array, last) = (reach(w, order), prefix_table(w, order));
    Facts { groups, array, last, length, starts, mark, repeated: repeated(w), lyndon, nodes, listing }
}

/// The largest c for which the stored pattern's first c factors end at or before `from` and are the edited one's first c.
fn kept(w: &[u8], stored: &[Factor], edited: &[u8], fresh: &[Factor], from: usize) -> usize {
    let word_of = |p: &[u8], f: Factor| p[f.0..f.0 + f.1].to_vec();
    let keeps = |c: usize| {
        c <= fresh.len() && (0..c).all(|k| stored[k].0 + stored[k].1 <= from && word_of(w, stored[k]) == word_of(edited, fresh[k]))
    };
    (0..=stored.len()).rev().find(|&c| keeps(c)).unwrap()
}

/// The answer to an edit that none of the refusals 1 to 5 concerns.
fn edit(g: &Given) -> Edit {
    let Given { pattern: w, order, from, to, block, .. } = *g;
    let edited = edited(g);
    let place = |s: usize| from + block.len() + s - to;
    let fresh = factors(&edited, order);
    let kept = kept(w, &factors(w, order), &edited, &fresh, from);
    let resume = (to..=w.len()).find(|&s| s == w.len() || fresh.iter().any(|f| f.0 == place(s))).unwrap();
    let middle: Vec<Factor> = fresh[kept..].iter().copied().filter(|f| f.0 < place(resume)).collect();
    let (length, starts) = longest(&edited, order);
    Edit { kept, resume, middle: groups(&edited, &middle), length, starts }
}
