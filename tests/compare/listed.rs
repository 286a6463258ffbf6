//! What the program `edited` prints for the files it is given, held to the grouped factors of the whole edited pattern, or to the refusal line.
//! It is run in a folder of its own, once for each edit.
use crate::edits::{change, parts, same_word};
use crate::engine::Given;
use crate::families::families;
use crate::fast::FAST;
use crate::long::some_edits;
use crate::oracle::{NAIVE, is_lyndon};
use crate::ranks::BYTE_ORDER;
use crate::right::{BLOCK_LIMIT, LIMIT, Right, edited, shape_holds};
use crate::short::{every_word, random_block, random_stretch, random_word};
use crate::tally::{Random, Tally};
use std::path::Path;
use std::process::{Command, Stdio};
use std::{fs, io};

const PROGRAM: &str = "target/bin/edited";
const FOLDER: &str = "target/compare/files";

/// What the program prints, and whether it ends well.
fn printed(g: &Given) -> io::Result<(Vec<u8>, bool)> {
    let csv = format!("from,to\r\n{},{}\r\n", g.from, g.to);
    fs::create_dir_all(FOLDER)?;
    for (name, content) in [("pattern.bin", g.pattern), ("block.bin", g.block), ("edit.csv", csv.as_bytes())] {
        fs::write(Path::new(FOLDER).join(name), content)?;
    }
    let done = Command::new(fs::canonicalize(PROGRAM)?).current_dir(FOLDER).stdin(Stdio::null()).output()?;
    Ok((done.stdout, done.status.success()))
}

/// One edit; the program makes the tables itself and works in byte order. Whether it is accepted.
fn compare(t: &mut Tally, right: &Right, g: &Given) -> bool {
    let holds = shape_holds(g);
    t.edit(holds.none());
    let want = match holds.first() {
        0 => (right.listing)(&edited(g), g.order),
        number => format!("refused,{number}\r\n").into_bytes(),
    };
    let (got, well) = printed(g).expect("the program can be run and its files written");
    let same = got.iter().zip(&want).take_while(|(a, b)| a == b).count();
    let text = |bytes: &[u8]| String::from_utf8_lossy(&bytes[same..bytes.len().min(same + 200)]).into_owned();
    t.check(well && got == want, || {
        format!("{}: ended well: {well}; from byte {same} on {:?}, want {:?}", change(g), text(&got), text(&want))
    });
    holds.none()
}

fn given<'a>(pattern: &'a [u8], from: usize, to: usize, block: &'a [u8]) -> Given<'a> {
    Given { pattern, order: &BYTE_ORDER, array: &[], last: &[], from, to, block }
}

/// Every stretch, also those past the end and from its end to its start, and every block. Each edit that is accepted goes to `each`.
fn every_edit(t: &mut Tally, w: &[u8], blocks: &[Vec<u8>], mut each: impl FnMut(&Given)) {
    t.words += 1;
    for from in 0..=w.len() + 1 {
        for to in 0..=w.len() + 1 {
            for block in blocks {
                let g = given(w, from, to, block);
                if compare(t, &NAIVE, &g) {
                    each(&g);
                }
            }
        }
    }
}

pub fn short(t: &mut Tally, letters: &[u8], length: usize, block_length: usize) {
    let blocks = every_word(letters, block_length);
    for w in every_word(letters, length) {
        every_edit(t, &w, &blocks, |_| ());
    }
}

/// Where equal words meet: at the first seam, at the second, and from kept to resumed factors where the middle is empty.
fn meetings(g: &Given) -> [bool; 3] {
    let e = (NAIVE.edit)(g);
    let whole = edited(g);
    let [kept, middle, resumed] = parts(&NAIVE, g, &e);
    let meet = |a: Option<_>, b: Option<_>| a.zip(b).is_some_and(|(a, b)| same_word(&whole, a, b));
    let through = middle.is_empty() && meet(kept.last(), resumed.first());
    [meet(kept.last(), middle.first()), meet(middle.last(), resumed.first()), through]
}

/// A Lyndon word over and over, with itself put in and parts taken out. Every kind of meeting must come up, and both seams at once.
pub fn seams(t: &mut Tally, letters: &[u8], length: usize) {
    let mut seen = [0; 4];
    for word in every_word(letters, length).iter().filter(|w| is_lyndon(w, &BYTE_ORDER)) {
        let blocks: Vec<Vec<u8>> = (0..3).map(|k| word.repeat(k)).collect();
        for k in 1..4 {
            every_edit(t, &word.repeat(k), &blocks, |g| {
                let [first, second, through] = meetings(g);
                for (count, met) in seen.iter_mut().zip([first && !second, second && !first, first && second, through]) {
                    *count += usize::from(met);
                }
            });
        }
    }
    t.check(seen.iter().all(|&count| count > 0), || format!("first seam, second, both, empty middle: {seen:?} edits"));
}

pub fn random(t: &mut Tally, r: &mut Random, count: usize) {
    for _ in 0..count {
        let w = random_word(r);
        t.words += 1;
        let (from, to) = random_stretch(r, w.len());
        compare(t, &NAIVE, &given(&w, from, to, &random_block(r, &w)));
    }
}

/// Words of the longest lengths that are accepted; one byte more of the same is refused, and so is a block of 257.
pub fn words(t: &mut Tally, r: &mut Random, n: usize) {
    for (family, w) in families(n, r) {
        t.origin = format!("{family}, {n} bytes: ");
        t.words += 1;
        for (from, to, block) in some_edits(r, &w) {
            compare(t, &FAST, &given(&w, from, to, &block));
        }
        compare(t, &FAST, &given(&w, 0, n, &[0; BLOCK_LIMIT + 1]));
        let long: Vec<u8> = w.iter().copied().cycle().take(LIMIT + 1).collect();
        compare(t, &FAST, &given(&long, 0, 1, b""));
    }
}
