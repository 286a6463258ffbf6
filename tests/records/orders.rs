//! Orders of the bytes that the edits are tried under, and rows that are none. Entry b is the rank of byte b.

/// Exactly so many entries, each of 0 to 255 once.
pub const SIZE: usize = 256;

pub fn byte_order() -> Vec<u8> {
    (0..=255).collect()
}

/// Numbers without rule, the same in every run.
pub struct Chance(pub u64);

impl Chance {
    pub fn below(&mut self, n: usize) -> usize {
        self.0 = self.0.wrapping_mul(6364136223846793005).wrapping_add(1442695040888963407);
        (self.0 >> 33) as usize % n
    }

    pub fn word(&mut self, n: usize, letters: usize) -> Vec<u8> {
        (0..n).map(|_| self.below(letters) as u8).collect()
    }

    pub fn order(&mut self) -> Vec<u8> {
        let mut ranks = byte_order();
        for k in (1..SIZE).rev() {
            ranks.swap(k, self.below(k + 1));
        }
        ranks
    }
}

/// Byte order, its reverse, and one without rule.
pub fn orders() -> [(&'static str, Vec<u8>); 3] {
    [("byte order", byte_order()), ("reverse", (0..=255).rev().collect()), ("shuffled", Chance(5).order())]
}

/// What 13 refuses: rows of another length, and with a rank twice.
pub fn no_orders() -> Vec<(&'static str, Vec<u8>)> {
    let right = byte_order();
    let longer = [&right[..], &[0]].concat();
    let with = |at: usize, rank: u8| {
        let mut ranks = byte_order();
        ranks[at] = rank;
        ranks
    };
    vec![
        ("an empty row", vec![]),
        ("255 ranks", right[..255].to_vec()),
        ("257 ranks", longer),
        ("byte order twice over", right.repeat(2)),
        ("zeros", vec![0; SIZE]),
        ("the first rank twice", with(1, 0)),
        ("the last rank twice", with(254, 255)),
        ("a rank at the end and before", with(255, 100)),
    ]
}

/// The bytes whose ranks these are.
pub fn spelled(ranks: &[u8], order: &[u8]) -> Vec<u8> {
    ranks.iter().map(|rank| order.iter().position(|other| other == rank).unwrap() as u8).collect()
}
