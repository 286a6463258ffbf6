//! The definitions of words, tables and edits under an order, computed as they read and as slowly as that is.

/// The answer to an accepted edit. A middle group is its start, the length of one factor, and the power.
#[derive(Clone, Debug, PartialEq)]
pub struct Answer {
    pub kept: usize,
    pub resume: usize,
    pub middle: Vec<[u16; 3]>,
    pub length: usize,
    pub starts: Vec<u16>,
}

/// The smaller has the smaller rank at the first difference; a proper prefix is smaller.
fn smaller(a: &[u8], b: &[u8], order: &[u8]) -> bool {
    match (0..a.len().min(b.len())).find(|&k| a[k] != b[k]) {
        Some(k) => order[a[k] as usize] < order[b[k] as usize],
        None => a.len() < b.len(),
    }
}

/// Nonempty, and strictly smaller than each of its nonempty proper suffixes.
fn is_lyndon(w: &[u8], order: &[u8]) -> bool {
    !w.is_empty() && (1..w.len()).all(|k| smaller(w, &w[k..], order))
}

/// The length of the longest Lyndon word that starts at `i`.
fn longest_at(s: &[u8], order: &[u8], i: usize) -> usize {
    (1..=s.len() - i).rev().find(|&l| is_lyndon(&s[i..i + l], order)).unwrap()
}

/// Lyndon words, none smaller than the next, whose joining is the pattern. They are found as longest prefixes, and tested.
fn factors<'a>(s: &'a [u8], order: &[u8]) -> Vec<&'a [u8]> {
    let mut found = Vec::new();
    let mut at = 0;
    while at < s.len() {
        let l = longest_at(s, order, at);
        found.push(&s[at..at + l]);
        at += l;
    }
    assert!(found.iter().all(|w| is_lyndon(w, order)) && found.windows(2).all(|p| !smaller(p[0], p[1], order)) && found.concat() == s);
    found
}

pub fn lyndon_array(s: &[u8], order: &[u8]) -> Vec<u16> {
    (0..s.len()).map(|i| longest_at(s, order, i) as u16).collect()
}

pub fn last_factors(s: &[u8], order: &[u8]) -> Vec<u16> {
    (1..=s.len()).map(|q| factors(&s[..q], order).last().unwrap().len() as u16).collect()
}

fn edited(s: &[u8], from: usize, to: usize, block: &[u8]) -> Vec<u8> {
    [&s[..from], block, &s[to..]].concat()
}

/// Where the first `c` words end.
fn end(words: &[&[u8]], c: usize) -> usize {
    words[..c].iter().map(|w| w.len()).sum()
}

/// Longest stretches of equal neighbours, the first of which starts at `at`.
fn groups(words: &[&[u8]], mut at: usize) -> Vec<[u16; 3]> {
    let mut found = Vec::new();
    for same in words.chunk_by(|a, b| a == b) {
        found.push([at as u16, same[0].len() as u16, same.len() as u16]);
        at += same.len() * same[0].len();
    }
    found
}

pub fn answer(s: &[u8], order: &[u8], from: usize, to: usize, block: &[u8]) -> Answer {
    let t = edited(s, from, to, block);
    let (old, new) = (factors(s, order), factors(&t, order));
    let starts: Vec<usize> = (0..new.len()).map(|c| end(&new, c)).collect();
    let place = |p: usize| from + block.len() + p - to;
    let most = old.len().min(new.len());
    let kept = (0..=most).rev().find(|&c| end(&old, c) <= from && old[..c] == new[..c]).unwrap();
    let resume = (to..=s.len()).find(|&p| p == s.len() || starts.contains(&place(p))).unwrap();
    let upto = starts.iter().filter(|&&p| p < place(resume)).count();
    let reach = lyndon_array(&t, order);
    let length = reach.iter().copied().max().unwrap_or(0);
    Answer {
        kept,
        resume,
        middle: groups(&new[kept..upto], end(&new, kept)),
        length: length as usize,
        starts: (0..t.len() as u16).filter(|&i| reach[i as usize] == length).collect(),
    }
}
