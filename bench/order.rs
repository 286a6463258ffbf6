//! How Rust's side compares two bytes: by their values, or by ranks that it looks up. Every algorithm of it is written once and compiled for each of
//! the two, so that byte order pays for no look-up. Whether bytes are equal does not depend on the order and is asked of the bytes.
#![forbid(unsafe_code)]

/// Entry b is the rank of byte b.
pub type Ranks = [u8; 256];

pub trait Order {
    /// How many bytes are tested at a time for being above a word's first.
    const STRIDE: usize;

    fn rank(ranks: &Ranks, byte: u8) -> u8;

    /// Puts the byte of each rank in its place.
    fn spell(ranks: &Ranks, pattern: &mut [u8]);

    #[inline(always)]
    fn below(ranks: &Ranks, x: u8, y: u8) -> bool {
        Self::rank(ranks, x) < Self::rank(ranks, y)
    }

    /// Ranks are looked up where the bytes differ.
    #[inline(always)]
    fn at_most(ranks: &Ranks, x: u8, y: u8) -> bool {
        x == y || Self::below(ranks, x, y)
    }
}

/// Byte order, whatever the ranks.
pub struct Bytes;

impl Order for Bytes {
    const STRIDE: usize = 32;

    #[inline(always)]
    fn rank(_: &Ranks, byte: u8) -> u8 {
        byte
    }

    fn spell(_: &Ranks, _: &mut [u8]) {}
}

/// Any order.
pub struct Looked;

impl Order for Looked {
    const STRIDE: usize = 16;

    #[inline(always)]
    fn rank(ranks: &Ranks, byte: u8) -> u8 {
        ranks[usize::from(byte)]
    }

    fn spell(ranks: &Ranks, pattern: &mut [u8]) {
        let mut bytes = [0; 256];
        for (&rank, byte) in ranks.iter().zip(0..=255) {
            bytes[usize::from(rank)] = byte;
        }
        for symbol in pattern {
            *symbol = bytes[usize::from(*symbol)];
        }
    }
}
