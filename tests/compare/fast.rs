//! The same answers for long words, by other ways than the definitions. Each is compared with the naive one in every run.
use crate::engine::{Given, Group};
use crate::ranks::below;
use crate::right::{Edit, Facts, Right, TREE_LIMIT, edited};
use std::cmp::Ordering;

pub const FAST: Right = Right { facts, groups, listing, edit };

/// Duval's algorithm; gives start, factor length and power of each group to `each`.
fn duval(w: &[u8], order: &[u8], mut each: impl FnMut(usize, usize, usize)) {
    let mut start = 0;
    while start < w.len() {
        let (mut k, mut j) = (start, start + 1);
        while j < w.len() && !below(order, w[j], w[k]) {
            k = if w[k] == w[j] { k + 1 } else { start };
            j += 1;
        }
        let length = j - k;
        let power = (j - start) / length;
        each(start, length, power);
        start += length * power;
    }
}

fn groups(w: &[u8], order: &[u8]) -> Vec<Group> {
    let mut found = Vec::new();
    duval(w, order, |start, length, power| found.push(Group { start: start as u16, length: length as u16, power: power as u16 }));
    found
}

pub fn last_factor(w: &[u8], order: &[u8]) -> usize {
    let mut last = 0;
    duval(w, order, |_, length, _| last = length);
    last
}

/// What a scan has read behind the factors before is a Lyndon word over and over, and a beginning of it. The last factor is that word or, where there
/// is more behind the last of them, that of the beginning, which was told when the scan was there.
fn prefix_table(w: &[u8], order: &[u8]) -> Vec<u16> {
    let mut last = vec![1; w.len()];
    let mut start = 0;
    while start < w.len() {
        let (mut k, mut j) = (start, start + 1);
        while j < w.len() && !below(order, w[j], w[k]) {
            k = if w[k] == w[j] { k + 1 } else { start };
            j += 1;
            let more = (j - start) % (j - k);
            last[j - 1] = if more == 0 { (j - k) as u16 } else { last[start + more - 1] };
        }
        start = j - (j - start) % (j - k);
    }
    last
}

/// The place of each suffix among all suffixes in order, by doubling: places by 1, 2, 4 .. bytes; 0 is past the end.
fn suffix_places(w: &[u8], order: &[u8]) -> Vec<u32> {
    let mut places: Vec<u32> = w.iter().map(|&b| u32::from(order[usize::from(b)]) + 1).collect();
    let mut step = 1;
    while step < w.len() {
        let key = |i: usize| u64::from(places[i]) << 32 | u64::from(*places.get(i + step).unwrap_or(&0));
        let mut sorted: Vec<(u64, usize)> = (0..w.len()).map(|i| (key(i), i)).collect();
        sorted.sort_unstable();
        let mut next = vec![1; w.len()];
        for pair in sorted.windows(2) {
            next[pair[1].1] = next[pair[0].1] + u32::from(pair[0].0 < pair[1].0);
        }
        let distinct = next[sorted[w.len() - 1].1] as usize == w.len();
        places = next;
        if distinct {
            break;
        }
        step *= 2;
    }
    places
}

/// The longest Lyndon substring at i ends where the first smaller suffix starts.
pub fn reach(w: &[u8], order: &[u8]) -> Vec<u16> {
    let places = suffix_places(w, order);
    let mut table = vec![0; w.len()];
    let mut waiting: Vec<usize> = Vec::new();
    for j in 0..=w.len() {
        while let Some(&i) = waiting.last().filter(|&&i| j == w.len() || places[j] < places[i]) {
            table[i] = (j - i) as u16;
            waiting.pop();
        }
        waiting.push(j);
    }
    table
}

fn longest(array: &[u16]) -> (usize, Vec<u16>) {
    let length = array.iter().copied().max().unwrap_or(0);
    let starts = (0..array.len()).filter(|&i| array[i] == length).map(|i| i as u16).collect();
    (usize::from(length), starts)
}

/// Two candidates i < j; the one whose rotation is found larger passes over what was compared.
pub fn mark(w: &[u8], order: &[u8]) -> usize {
    let n = w.len();
    let (mut i, mut j, mut same) = (0, 1, 0);
    while i < n && j < n && same < n {
        let (a, b) = (w[(i + same) % n], w[(j + same) % n]);
        if a == b {
            same += 1;
            continue;
        }
        if below(order, b, a) {
            i += same + 1;
        } else {
            j += same + 1;
        }
        if i == j {
            j += 1;
        }
        (i, j, same) = (i.min(j), i.max(j), 0);
    }
    if n == 0 { 0 } else { i.min(j) }
}

/// By the length of the longest border of each beginning: what it leaves of the whole word is the least period, which must divide the length.
pub fn repeated(w: &[u8]) -> bool {
    let mut border = vec![0; w.len()];
    for i in 1..w.len() {
        let mut k = border[i - 1];
        while k > 0 && w[i] != w[k] {
            k = border[k - 1];
        }
        border[i] = if w[i] == w[k] { k + 1 } else { k };
    }
    border.last().is_some_and(|&longest| longest > 0 && w.len() % (w.len() - longest) == 0)
}

/// The longest proper suffix that is a Lyndon word is the last factor of what follows the first byte.
fn tree(w: &[u8], order: &[u8], start: usize, nodes: &mut Vec<u16>) {
    nodes.extend([start as u16, w.len() as u16]);
    if w.len() > 1 {
        let cut = w.len() - last_factor(&w[1..], order);
        tree(&w[..cut], order, start, nodes);
        tree(&w[cut..], order, start + cut, nodes);
    }
}

/// The place of the first difference.
fn shared(a: &[u8], b: &[u8]) -> usize {
    a.iter().zip(b).position(|(x, y)| x != y).unwrap_or(a.len().min(b.len()))
}

/// The common beginning, and how Rust orders the lists of the ranks.
pub fn compared(a: &[u8], b: &[u8], order: &[u8]) -> [usize; 2] {
    let ranks = |w: &[u8]| w.iter().map(|&byte| order[usize::from(byte)]).collect::<Vec<u8>>();
    let smaller = match ranks(a).cmp(&ranks(b)) {
        Ordering::Equal => 0,
        Ordering::Less => 1,
        Ordering::Greater => 2,
    };
    [shared(a, b), smaller]
}

/// The same lines, each put together byte by byte. A line is closed by its last number once the next group is known.
fn listing(w: &[u8], order: &[u8]) -> Vec<u8> {
    let mut text = b"start,length,power,word,shared\r\n".to_vec();
    let mut before: &[u8] = &[];
    let close = |text: &mut Vec<u8>, shared: usize| text.extend([b",", shared.to_string().as_bytes(), b"\r\n"].concat());
    duval(w, order, |start, length, power| {
        let word = &w[start..start + length];
        if !before.is_empty() {
            close(&mut text, shared(before, word));
        }
        for number in [start, length, power] {
            text.extend(number.to_string().bytes());
            text.push(b',');
        }
        for byte in word {
            text.extend([byte >> 4, byte & 15].map(|digit| b"0123456789ABCDEF"[usize::from(digit)]));
        }
        before = word;
    });
    if !before.is_empty() {
        close(&mut text, 0);
    }
    text
}

fn facts(w: &[u8], order: &[u8]) -> Facts {
    let groups = groups(w, order);
    let array = reach(w, order);
    let (length, starts) = longest(&array);
    let last = prefix_table(w, order);
    let lyndon = groups.len() == 1 && groups[0].power == 1;
    let mut nodes = Vec::new();
    if lyndon && w.len() <= TREE_LIMIT {
        tree(w, order, 0, &mut nodes);
    }
    let (mark, listing) = (mark(w, order), listing(w, order));
    Facts { groups, array, last, length, starts, mark, repeated: repeated(w), lyndon, nodes, listing }
}

/// The end of each factor.
fn ends(w: &[u8], order: &[u8]) -> Vec<usize> {
    let mut found = Vec::new();
    duval(w, order, |start, length, power| found.extend((1..=power).map(|k| start + k * length)));
    found
}

/// Groups of the factors between neighbouring bounds.
fn grouped(w: &[u8], bounds: &[usize]) -> Vec<Group> {
    let mut found: Vec<Group> = Vec::new();
    for k in 1..bounds.len() {
        let word = &w[bounds[k - 1]..bounds[k]];
        let same = k > 1 && w[bounds[k - 2]..bounds[k - 1]] == *word;
        match found.last_mut().filter(|_| same) {
            Some(group) => group.power += 1,
            None => found.push(Group { start: bounds[k - 1] as u16, length: word.len() as u16, power: 1 }),
        }
    }
    found
}

fn edit(g: &Given) -> Edit {
    let Given { pattern: w, order, from, to, block, .. } = *g;
    let edited = edited(g);
    let (old, new) = (ends(w, order), ends(&edited, order));
    let kept = old.iter().zip(&new).take_while(|(a, b)| a == b && **a <= from).count();
    let resumed = from + block.len();
    let starts_at = |place: usize| place == 0 || place == edited.len() || new.binary_search(&place).is_ok();
    let place = (resumed..).find(|&p| starts_at(p)).unwrap();
    let first = if kept == 0 { 0 } else { new[kept - 1] };
    let bounds: Vec<usize> = std::iter::once(first).chain(new[kept..].iter().copied().take_while(|&e| e <= place)).collect();
    let (length, starts) = longest(&reach(&edited, order));
    Edit { kept, resume: place - resumed + to, middle: grouped(&edited, &bounds), length, starts }
}
