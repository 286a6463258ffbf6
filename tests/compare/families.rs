//! Ten families of long words, made of ranks. The two letters are 7F and 80, which a signed comparison would take the other way.
use crate::tally::Random;

pub const A: u8 = 0x7F;
pub const B: u8 = 0x80;

fn fibonacci(n: usize) -> Vec<u8> {
    let (mut last, mut word) = (vec![B], vec![A]);
    while word.len() < n {
        let next = [&word[..], &last].concat();
        last = std::mem::replace(&mut word, next);
    }
    word.truncate(n);
    word
}

fn thue_morse(n: usize) -> Vec<u8> {
    (0..n).map(|i| if i.count_ones() % 2 == 0 { A } else { B }).collect()
}

/// a^m b over and over, where two of them make n or n - 1 bytes.
fn halves(n: usize) -> Vec<u8> {
    let m = n / 2 - 1;
    (0..n).map(|i| if i % (m + 1) == m { B } else { A }).collect()
}

/// a, ab, abac, abacabad ..: twice the word before, the last letter one larger.
fn doubling(n: usize) -> Vec<u8> {
    (1..=n).map(|i| A + i.trailing_zeros() as u8).collect()
}

pub fn families(n: usize, random: &mut Random) -> [(&'static str, Vec<u8>); 10] {
    [
        ("random bytes", random.bytes(n)),
        ("random, two letters", random.letters(&[A, B], n)),
        ("Fibonacci", fibonacci(n)),
        ("Thue-Morse", thue_morse(n)),
        ("a^n", vec![A; n]),
        ("a^n b", (1..=n).map(|i| if i == n { B } else { A }).collect()),
        ("(ab)^n", (0..n).map(|i| [A, B][i % 2]).collect()),
        ("ramp", (0..n).map(|i| (i % 256) as u8).collect()),
        ("a^m b a^m b", halves(n)),
        ("doubling", doubling(n)),
    ]
}
