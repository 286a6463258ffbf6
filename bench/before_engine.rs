//! The functions of other archives, those before calls took an order, each behind a safe function: their names begin with `old_`. What they promise
//! is what the engine's promise in byte order.
use crate::engine::{Answer, EditAnswer, Given, Group};

type Fill<T> = unsafe extern "C" fn(*const u8, usize, *mut T, usize, *mut usize) -> u8;
type Part = unsafe extern "C" fn(*const u8, usize, *const u16, usize, *mut u16, usize, usize, *mut usize) -> u8;

#[rustfmt::skip]
unsafe extern "C" {
    fn old_lyndon_factor(pattern: *const u8, pattern_len: usize, groups: *mut u16, groups_len: usize, count: *mut usize) -> u8;
    fn old_lyndon_array(pattern: *const u8, pattern_len: usize, table: *mut u16, table_len: usize, count: *mut usize) -> u8;
    fn old_lyndon_last_factors(pattern: *const u8, pattern_len: usize, table: *mut u16, table_len: usize, count: *mut usize) -> u8;
    fn old_lyndon_realise_array(wanted: *const u16, wanted_len: usize, pattern: *mut u8, pattern_len: usize, count: *mut usize) -> u8;
    fn old_lyndon_longest_words(pattern: *const u8, pattern_len: usize, starts: *mut u16, starts_len: usize, size: *mut usize, count: *mut usize) -> u8;
    fn old_lyndon_longest_word(pattern: *const u8, pattern_len: usize, start: *mut usize, size: *mut usize);
    fn old_lyndon_is_lyndon(word: *const u8, word_len: usize, yes: *mut u8) -> u8;
    fn old_lyndon_least_rotation(pattern: *const u8, pattern_len: usize, start: *mut usize) -> u8;
    fn old_lyndon_tree(word: *const u8, word_len: usize, nodes: *mut u16, nodes_len: usize, count: *mut usize) -> u8;
    fn old_lyndon_factor_prefix(pattern: *const u8, pattern_len: usize, table: *const u16, table_len: usize,
                                groups: *mut u16, groups_len: usize, end: usize, count: *mut usize) -> u8;
    fn old_lyndon_factor_suffix(pattern: *const u8, pattern_len: usize, table: *const u16, table_len: usize,
                                groups: *mut u16, groups_len: usize, start: usize, count: *mut usize) -> u8;
    fn old_lyndon_compare(first: *const u8, first_len: usize, second: *const u8, second_len: usize, shared: *mut usize, smaller: *mut u8) -> u8;
    fn old_lyndon_write_listing(pattern: *const u8, pattern_len: usize, text: *mut u8, text_len: usize, count: *mut usize) -> u8;
    fn old_lyndon_read_block(bytes: *const u8, bytes_len: usize, place: *mut usize, count: *mut usize) -> u8;
    fn old_lyndon_write_block(pattern: *const u8, pattern_len: usize, bytes: *mut u8, bytes_len: usize, count: *mut usize) -> u8;
    fn old_lyndon_edit(pattern: *const u8, pattern_len: usize, array: *const u16, array_len: usize, last: *const u16, last_len: usize,
                       from: usize, to: usize, block: *const u8, block_len: usize,
                       middle: *mut Group, middle_len: usize, starts: *mut u16, starts_len: usize) -> EditAnswer;
}

// SAFETY, of each call below: a slice's pointer and length are passed as they are, a `&mut` overlaps nothing, and the engine keeps none of them.

fn fill<T>(call: Fill<T>, pattern: &[u8], row: &mut [T]) -> Answer {
    let mut count = 0;
    let refusal = unsafe { call(pattern.as_ptr(), pattern.len(), row.as_mut_ptr(), row.len(), &mut count) };
    (refusal, [count, 0])
}

pub fn factor(pattern: &[u8], groups: &mut [u16]) -> Answer {
    fill(old_lyndon_factor, pattern, groups)
}

pub fn array(pattern: &[u8], table: &mut [u16]) -> Answer {
    fill(old_lyndon_array, pattern, table)
}

pub fn last_factors(pattern: &[u8], table: &mut [u16]) -> Answer {
    fill(old_lyndon_last_factors, pattern, table)
}

pub fn realise_array(wanted: &[u16], pattern: &mut [u8]) -> Answer {
    let mut count = 0;
    let refusal = unsafe { old_lyndon_realise_array(wanted.as_ptr(), wanted.len(), pattern.as_mut_ptr(), pattern.len(), &mut count) };
    (refusal, [count, 0])
}

pub fn longest_words(pattern: &[u8], starts: &mut [u16]) -> Answer {
    let (mut size, mut count) = (0, 0);
    let refusal =
        unsafe { old_lyndon_longest_words(pattern.as_ptr(), pattern.len(), starts.as_mut_ptr(), starts.len(), &mut size, &mut count) };
    (refusal, [size, count])
}

pub fn longest_word(pattern: &[u8]) -> [usize; 2] {
    let (mut start, mut size) = (0, 0);
    unsafe { old_lyndon_longest_word(pattern.as_ptr(), pattern.len(), &mut start, &mut size) };
    [start, size]
}

pub fn is_lyndon(word: &[u8]) -> Answer {
    let mut yes = 0;
    let refusal = unsafe { old_lyndon_is_lyndon(word.as_ptr(), word.len(), &mut yes) };
    (refusal, [usize::from(yes), 0])
}

pub fn least_rotation(pattern: &[u8]) -> Answer {
    let mut start = 0;
    let refusal = unsafe { old_lyndon_least_rotation(pattern.as_ptr(), pattern.len(), &mut start) };
    (refusal, [start, 0])
}

pub fn tree(word: &[u8], nodes: &mut [u16]) -> Answer {
    fill(old_lyndon_tree, word, nodes)
}

fn part(call: Part, pattern: &[u8], table: &[u16], position: usize, groups: &mut [u16]) -> Answer {
    let (table, table_len) = (table.as_ptr(), table.len());
    let mut count = 0;
    let refusal =
        unsafe { call(pattern.as_ptr(), pattern.len(), table, table_len, groups.as_mut_ptr(), groups.len(), position, &mut count) };
    (refusal, [count, 0])
}

pub fn factor_prefix(pattern: &[u8], last: &[u16], end: usize, groups: &mut [u16]) -> Answer {
    part(old_lyndon_factor_prefix, pattern, last, end, groups)
}

pub fn factor_suffix(pattern: &[u8], array: &[u16], start: usize, groups: &mut [u16]) -> Answer {
    part(old_lyndon_factor_suffix, pattern, array, start, groups)
}

pub fn compare(first: &[u8], second: &[u8]) -> Answer {
    let (mut shared, mut smaller) = (0, 0);
    let refusal = unsafe { old_lyndon_compare(first.as_ptr(), first.len(), second.as_ptr(), second.len(), &mut shared, &mut smaller) };
    (refusal, [shared, usize::from(smaller)])
}

pub fn write_listing(pattern: &[u8], text: &mut [u8]) -> Answer {
    fill(old_lyndon_write_listing, pattern, text)
}

pub fn read_block(bytes: &[u8]) -> Answer {
    let (mut place, mut count) = (0, 0);
    let refusal = unsafe { old_lyndon_read_block(bytes.as_ptr(), bytes.len(), &mut place, &mut count) };
    (refusal, [place, count])
}

pub fn write_block(pattern: &[u8], bytes: &mut [u8]) -> Answer {
    fill(old_lyndon_write_block, pattern, bytes)
}

#[rustfmt::skip]
pub fn edit(g: &Given, middle: &mut [Group], starts: &mut [u16]) -> EditAnswer {
    let (array, last, block) = (g.array.as_ptr(), g.last.as_ptr(), g.block.as_ptr());
    let (rows, places) = (middle.as_mut_ptr(), starts.as_mut_ptr());
    unsafe {
        old_lyndon_edit(g.pattern.as_ptr(), g.pattern.len(), array, g.array.len(), last, g.last.len(),
                        g.from, g.to, block, g.block.len(), rows, middle.len(), places, starts.len())
    }
}
