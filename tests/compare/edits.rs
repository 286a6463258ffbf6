//! Compares the call that answers an edit with what is right.
use crate::engine::{self, EditAnswer, Given, Group};
use crate::lent::{Lent, lengths};
use crate::right::{Edit, Facts, Right, binary_digits, edit_holds, edited};
use crate::tally::{Tally, brief, show};

/// What an edit is to answer: a refusal's number, or the answer.
pub type Want<'a> = Result<&'a Edit, u8>;

pub fn change(g: &Given) -> String {
    format!("edit of {} from {} to {}, block {}", show(g.pattern), g.from, g.to, show(g.block))
}

pub fn describe(g: &Given) -> String {
    format!("{}, tables of {:?}", change(g), (g.array.len(), g.last.len()))
}

fn told(want: Want) -> EditAnswer {
    match want {
        Err(refusal) => EditAnswer { refusal, kept: 0, resume: 0, groups: 0, length: 0, starts: 0 },
        Ok(e) => {
            let (groups, starts) = (e.middle.len(), e.starts.len());
            EditAnswer { refusal: 0, kept: e.kept, resume: e.resume, groups, length: e.length, starts }
        }
    }
}

/// What is read, each in the middle of a longer row; the order lies in one already.
struct Read {
    pattern: Lent<u8>,
    array: Lent<u16>,
    last: Lent<u16>,
    block: Lent<u8>,
}

impl Read {
    fn new(g: &Given) -> Read {
        let (array, last) = (Lent::holding(g.array), Lent::holding(g.last));
        Read { pattern: Lent::holding(g.pattern), array, last, block: Lent::holding(g.block) }
    }

    fn given<'a>(&'a self, g: &Given<'a>) -> Given<'a> {
        let (array, last) = (self.array.contents(), self.last.contents());
        Given { pattern: self.pattern.contents(), array, last, block: self.block.contents(), ..*g }
    }

    fn unchanged(&self) -> bool {
        self.pattern.unchanged() && self.array.unchanged() && self.last.unchanged() && self.block.unchanged()
    }
}

/// One call, with rows of the given lengths, in groups and in starts; `want` is without regard to them.
pub fn one(t: &mut Tally, g: &Given, want: Want, rows: (usize, usize)) {
    let read = Read::new(g);
    let (mut middle, mut starts) = (Lent::blank(rows.0), Lent::blank(rows.1));
    let got = engine::edit(&read.given(g), middle.row(), starts.row());
    let short = |e: &Edit| rows.0 < e.middle.len() || rows.1 < e.starts.len();
    let want = want.and_then(|e| if short(e) { Err(8) } else { Ok(e) });
    let case = || format!("{}, rows of {rows:?}", describe(g));
    let unlike = |name: &str, row: String, want: String| format!("{}: {name} {row}, want {want}, the rest as before", case());
    t.equal(&got, &told(want), case);
    let (groups, places): (&[Group], &[u16]) = want.map_or((&[], &[]), |e| (&e.middle, &e.starts));
    t.check(middle.holds(groups), || unlike("middle", brief(middle.contents()), brief(groups)));
    t.check(starts.holds(places), || unlike("starts", brief(starts.contents()), brief(places)));
    t.check(read.unchanged() && t.order.unchanged(), || format!("{}: what is read was changed", case()));
}

/// Rows of each length worth trying; with a long pattern one of the two is exact.
fn all_rows(t: &mut Tally, g: &Given, want: Want) {
    let (groups, starts) = want.map_or((0, 0), |e| (e.middle.len(), e.starts.len()));
    for s in lengths(starts) {
        for m in lengths(groups) {
            if g.pattern.len() < 1000 || m == groups || s == starts {
                one(t, g, want, (m, s));
            }
        }
    }
}

/// No more groups are spelled out afresh than this.
fn bounded(t: &mut Tally, g: &Given, e: &Edit) {
    let most = binary_digits(g.from) + g.block.len() + 1;
    t.check(e.middle.len() <= most, || format!("{}: {} groups, at most {most}", describe(g), e.middle.len()));
}

/// The kept, middle and resumed factors that an answer tells, at their places in the edited pattern. Kept ones are groups of one each.
pub fn parts(right: &Right, g: &Given, e: &Edit) -> [Vec<Group>; 3] {
    let single = |m: Group| (0..m.power).map(move |k| Group { start: m.start + k * m.length, length: m.length, power: 1 });
    let kept = (right.groups)(g.pattern, g.order).into_iter().flat_map(single).take(e.kept).collect();
    let place = (g.from + g.block.len() + e.resume - g.to) as u16;
    let resumed = (right.groups)(&g.pattern[e.resume..], g.order).into_iter().map(|m| Group { start: m.start + place, ..m }).collect();
    [kept, e.middle.clone(), resumed]
}

/// Whether two groups of factors of a pattern have the same word.
pub fn same_word(w: &[u8], a: &Group, b: &Group) -> bool {
    let word = |m: &Group| &w[usize::from(m.start)..usize::from(m.start + m.length)];
    word(a) == word(b)
}

/// With equal neighbours joined, the three parts are the groups of the edited pattern.
fn joined(t: &mut Tally, right: &Right, g: &Given, e: &Edit) {
    let whole = edited(g);
    let mut found: Vec<Group> = Vec::new();
    for m in parts(right, g, e).concat() {
        match found.last_mut().filter(|before| same_word(&whole, before, &m)) {
            Some(before) => before.power += m.power,
            None => found.push(m),
        }
    }
    t.equal(&found, &(right.groups)(&whole, g.order), || format!("{}: the parts joined", describe(g)));
}

pub fn compare(t: &mut Tally, right: &Right, f: &Facts, g: &Given) {
    let holds = edit_holds(g, f);
    t.edit(holds.none());
    if !holds.none() {
        return all_rows(t, g, Err(holds.first()));
    }
    let e = (right.edit)(g);
    bounded(t, g, &e);
    joined(t, right, g, &e);
    all_rows(t, g, Ok(&e));
}
