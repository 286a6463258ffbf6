//! The least times of both sides, passed on as lines from several links of the benchmark, and the tables made of all these lines: one side beside
//! the other, and how the time of a byte grows from one length to another. The test of 13 is taken off the engine's times.
use std::collections::HashMap;

/// In nanoseconds.
#[derive(Clone, Copy)]
pub struct Times {
    pub engine: f64,
    pub plain: f64,
}

impl Times {
    pub const NONE: Times = Times { engine: f64::INFINITY, plain: f64::INFINITY };

    /// Prints a line that `read` reads.
    pub fn print(&self, order: &str, size: &str, family: &str, contest: &str) {
        println!("{order}\t{size}\t{family}\t{contest}\t{}\t{}", self.engine, self.plain);
    }
}

/// The largest ratio wanted, and of which families; of all of them where none is named.
#[derive(Clone, Copy)]
pub struct Target {
    pub most: f64,
    pub families: &'static [&'static str],
}

impl Target {
    pub const NONE: Target = Target::everywhere(f64::INFINITY);

    pub const fn everywhere(most: f64) -> Target {
        Target { most, families: &[] }
    }

    fn is_missed(&self, family: &str, ratio: f64) -> bool {
        ratio > self.most && (self.families.is_empty() || self.families.contains(&family))
    }
}

/// By order, size, family and contest.
pub struct Least(HashMap<[String; 4], Times>);

/// Takes the least of the times that the lines have for the same order, size, family and contest.
pub fn read(lines: impl Iterator<Item = String>) -> Least {
    let mut least = HashMap::new();
    for line in lines {
        let fields: Vec<_> = line.split('\t').collect();
        let [order, size, family, contest, engine, plain] = fields[..] else { panic!("no line of times: {line}") };
        let number = |field: &str| field.parse::<f64>().expect("a time is a number");
        let times = least.entry([order, size, family, contest].map(String::from)).or_insert(Times::NONE);
        times.engine = times.engine.min(number(engine));
        times.plain = times.plain.min(number(plain));
    }
    Least(least)
}

/// Where the test of 13 is among the lines: size, family and contest.
pub const TEST: [&str; 3] = ["test", "empty string", "test of 13"];

/// The times under an order, and what is said of the two sides.
pub struct Page<'a> {
    pub least: &'a Least,
    pub order: &'a str,
    pub sides: &'a str,
}

fn head<'a>(title: &str, names: impl Iterator<Item = &'a str>) {
    let names: Vec<_> = names.collect();
    println!("| {title} | {} |\n|---{}|", names.join(" | "), "|---".repeat(names.len()));
}

impl Page<'_> {
    fn found(&self, [size, family, contest]: [&str; 3]) -> Option<Times> {
        self.least.0.get(&[self.order, size, family, contest].map(String::from)).copied()
    }

    /// The time of the test of 13 without that of its call; 0 where the calls take no order.
    fn test(&self) -> f64 {
        self.found(TEST).map_or(0.0, |t| (t.engine - t.plain).max(0.0))
    }

    /// The test of 13 is taken off.
    fn times(&self, size: &str, family: &str, contest: &str) -> Times {
        let Times { engine, plain } = self.found([size, family, contest]).expect("a line of it");
        Times { engine: engine - self.test(), plain }
    }

    /// Prints how long the test of 13 takes.
    pub fn print_test(&self) {
        let Times { engine, plain } = self.found(TEST).expect("a line of it");
        let (order, test) = (self.order, self.test());
        println!("test of 13, {order}: {test:.1} ns (a call that does nothing else {engine:.1}, one that is refused at once {plain:.1})\n");
    }

    /// Prints a row for each family; a contest is a name and its target.
    pub fn print(&self, size: &str, contests: &[(&str, Target)], families: &[&str]) {
        head(&format!("{}, {size}: {}, ns", self.order, self.sides), contests.iter().map(|c| c.0));
        let mut over = 0;
        for family in families {
            print!("| {family} |");
            for &(name, target) in contests {
                let Times { engine, plain } = self.times(size, family, name);
                let is_over = target.is_missed(family, engine / plain);
                over += usize::from(is_over);
                print!(" {engine:.0} / {plain:.0} = {:.2}{} |", engine / plain, if is_over { " (over)" } else { "" });
            }
            println!();
        }
        println!("\nresults equal on all inputs; {over} over their target\n");
    }

    /// Prints how many times as long as another family the engine takes on one, beside the most wanted.
    pub fn beside(&self, size: &str, contest: &str, [family, other]: [&str; 2], most: f64) {
        let [ours, others] = [family, other].map(|f| self.times(size, f, contest).engine);
        let verdict = if ours / others > most { "over" } else { "within" };
        println!("{contest}, {size}: {family} takes {:.2} times as long as {other}, {verdict} {most:.1}\n", ours / others);
    }

    /// Prints by how much the time of a byte grows: that of the second size by that of the first, of the engine and of Rust. A size is its name
    /// and its bytes.
    pub fn growth(&self, [short, long]: [(&str, usize); 2], contests: &[&str], families: &[&str]) {
        head(&format!("a byte of {} by one of {}: engine, Rust", long.0, short.0), contests.iter().copied());
        let bytes = short.1 as f64 / long.1 as f64;
        for family in families {
            print!("| {family} |");
            for name in contests {
                let (from, to) = (self.times(short.0, family, name), self.times(long.0, family, name));
                print!(" {:.2}, {:.2} |", to.engine / from.engine * bytes, to.plain / from.plain * bytes);
            }
            println!();
        }
        println!();
    }
}
