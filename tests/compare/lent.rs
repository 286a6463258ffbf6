//! Rows lent to the engine, in the middle of a longer one. What is before, behind and past a result must be as it was.
use crate::engine::Group;
use std::hint::black_box;

const GUARD: usize = 8;

/// An entry that can stand where nothing is to be written: entry k of a row that was never touched.
pub trait Entry: Copy + PartialEq {
    fn canary(k: usize) -> Self;
}

impl Entry for u8 {
    fn canary(k: usize) -> u8 {
        (k.wrapping_mul(37) + 171) as u8
    }
}

/// Larger than every place, length and power, so that an entry left unwritten is seen.
impl Entry for u16 {
    fn canary(k: usize) -> u16 {
        0xA000 + (k % 0x1000) as u16
    }
}

impl Entry for Group {
    fn canary(k: usize) -> Group {
        Group { start: u16::canary(3 * k), length: u16::canary(3 * k + 1), power: u16::canary(3 * k + 2) }
    }
}

pub struct Lent<T> {
    buffer: Vec<T>,
    before: Vec<T>,
}

impl<T: Entry> Lent<T> {
    /// A row for a result.
    pub fn blank(length: usize) -> Lent<T> {
        let buffer: Vec<T> = (0..length + 2 * GUARD).map(T::canary).collect();
        Lent { before: buffer.clone(), buffer }
    }

    /// A row that is to be read.
    pub fn holding(contents: &[T]) -> Lent<T> {
        let mut lent = Lent::blank(contents.len());
        lent.row().copy_from_slice(contents);
        lent.before.clone_from(&lent.buffer);
        lent
    }

    fn end(&self) -> usize {
        self.buffer.len() - GUARD
    }

    pub fn row(&mut self) -> &mut [T] {
        let end = self.end();
        &mut self.buffer[GUARD..end]
    }

    pub fn contents(&self) -> &[T] {
        &self.buffer[GUARD..self.end()]
    }

    /// The whole buffer as it lies in memory: the compiler may not take for granted what a call was not to write.
    fn now(&self) -> &[T] {
        black_box(&self.buffer)
    }

    /// Whether the result fills the first entries and all others, canaries too, are as they were.
    pub fn holds(&self, result: &[T]) -> bool {
        let (now, end) = (self.now(), GUARD + result.len());
        end <= self.end() && now[..GUARD] == self.before[..GUARD] && now[GUARD..end] == *result && now[end..] == self.before[end..]
    }

    pub fn unchanged(&self) -> bool {
        self.now() == self.before
    }
}

/// Lengths to try for a row whose result has `need` entries: none, one too few, exact, longer.
pub fn lengths(need: usize) -> Vec<usize> {
    let mut all = vec![0, need.saturating_sub(1), need, need + 1, need + 5];
    all.dedup();
    all
}
