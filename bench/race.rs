//! Two sides of a contest on the same inputs: results compared, and times taken in turn.
//! The least time of all passes counts: other work on the machine comes and goes. The tables are table.rs's concern.
use crate::engine::Group;
use crate::inputs::{Family, SIZE, ranks};
use crate::order::Ranks;
use crate::ranks::Order;
use crate::table::{Target, Times};
use std::fmt::Debug;
use std::hint::black_box;
use std::time::{Duration, Instant};

const PASSES: usize = 40;
/// About the least time of a pass, and the most that all passes of a contest take on one family.
const PASS: Duration = Duration::from_micros(40);
const CELL: Duration = Duration::from_millis(100);

/// The rows that a call may write, each long enough for any result.
#[derive(Debug, PartialEq)]
pub struct Rows {
    pub numbers: Vec<u16>,
    pub records: Vec<Group>,
    pub starts: Vec<u16>,
    pub text: Vec<u8>,
}

impl Rows {
    fn new() -> Rows {
        let group = Group { start: 7, length: 7, power: 7 };
        Rows { numbers: vec![7; 3 * SIZE], records: vec![group; 272], starts: vec![7; SIZE], text: vec![7; 32 + 20 * SIZE] }
    }
}

/// A call on an input under an order.
pub type Call<I, O> = fn(&I, &Ranks, &mut Rows) -> O;

pub struct Contest<I, O> {
    pub name: &'static str,
    pub engine: Call<I, O>,
    pub plain: Call<I, O>,
    pub target: Target,
}

fn outcome<I, O>(call: Call<I, O>, input: &I, order: &Ranks) -> (O, Rows) {
    let mut rows = Rows::new();
    (call(input, order, &mut rows), rows)
}

impl<I, O: Debug + PartialEq> Contest<I, O> {
    /// One call of each side.
    pub fn once(&self, input: &I, order: &Ranks) {
        black_box((outcome(self.engine, input, order), outcome(self.plain, input, order)));
    }

    fn compare(&self, family: &str, inputs: &[I], order: &Ranks) {
        for input in inputs {
            let (engine, plain) = (outcome(self.engine, input, order), outcome(self.plain, input, order));
            assert_eq!(engine.0, plain.0, "{} of {family}", self.name);
            assert!(engine.1 == plain.1, "{} of {family}: the rows differ", self.name);
        }
    }

    fn times(&self, inputs: &[I], order: &Ranks, rows: &mut Rows) -> Times {
        let start = Instant::now();
        let mut times = 1;
        while nanoseconds(self.engine, inputs, order, rows, times) * ((times * inputs.len()) as f64) < PASS.as_nanos() as f64 {
            times *= 2;
        }
        let mut least = Times::NONE;
        for _ in 0..PASSES {
            least.engine = least.engine.min(nanoseconds(self.engine, inputs, order, rows, times));
            least.plain = least.plain.min(nanoseconds(self.plain, inputs, order, rows, times));
            if start.elapsed() > CELL {
                break;
            }
        }
        least
    }
}

/// The time of a call in nanoseconds, from that of `times` calls on each input.
fn nanoseconds<I, O>(call: Call<I, O>, inputs: &[I], order: &Ranks, rows: &mut Rows, times: usize) -> f64 {
    let start = Instant::now();
    for _ in 0..times {
        for input in inputs {
            black_box(call(black_box(input), black_box(order), black_box(&mut *rows)));
        }
    }
    start.elapsed().as_nanos() as f64 / (times * inputs.len()) as f64
}

/// Compares, then times, and prints a line for each family and contest behind the names of the order and of the inputs' size.
pub fn race<I, O: Debug + PartialEq>(order: &Order, size: &str, contests: &[Contest<I, O>], families: &[Family<I>]) {
    let ranks = &ranks(order);
    for contest in contests {
        for (family, inputs) in families {
            contest.compare(family, inputs, ranks);
        }
    }
    let mut rows = Rows::new();
    for (family, inputs) in families {
        for contest in contests {
            contest.times(inputs, ranks, &mut rows).print(&order.name, size, family, contest.name);
        }
    }
}
