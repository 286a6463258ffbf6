//! The proved functions of liblyndon_c.a and liblyndon_edit_c.a, each behind a safe function. include/lyndon.h has what they promise.
//! A number that a call sets is preset to one that no call answers, so that a number left unset is seen.

/// A group of equal neighbouring factors, as it lies in a row of records.
#[repr(C)]
#[derive(Clone, Copy, Debug, PartialEq, Eq)]
pub struct Group {
    pub start: u16,
    pub length: u16,
    pub power: u16,
}

/// The answer to an edit: the refusal's number or 0, and five numbers.
#[repr(C)]
#[derive(Clone, Copy, Debug, PartialEq, Eq)]
pub struct EditAnswer {
    pub refusal: u8,
    pub kept: usize,
    pub resume: usize,
    pub groups: usize,
    pub length: usize,
    pub starts: usize,
}

/// The refusal's number or 0, and the numbers set; the second is 0 where a call sets one.
pub type Answer = (u8, [usize; 2]);

/// What an edit is given, apart from the rows it writes.
#[derive(Clone, Copy)]
pub struct Given<'a> {
    pub pattern: &'a [u8],
    pub order: &'a [u8],
    pub array: &'a [u16],
    pub last: &'a [u16],
    pub from: usize,
    pub to: usize,
    pub block: &'a [u8],
}

const UNSET: usize = 0xDEAD_BEEF;

type Fill<T> = unsafe extern "C" fn(*const u8, usize, *const u8, usize, *mut T, usize, *mut usize) -> u8;
type Part = unsafe extern "C" fn(*const u8, usize, *const u8, usize, *const u16, usize, *mut u16, usize, usize, *mut usize) -> u8;

// A slice goes as two parameters. Declared as `&[u16]`, `array` of an edit would go astray: Rust passes a pair that no longer fits the registers in memory.
#[rustfmt::skip]
unsafe extern "C" {
    fn lyndon_factor(pattern: *const u8, pattern_len: usize, order: *const u8, order_len: usize,
                     groups: *mut u16, groups_len: usize, count: *mut usize) -> u8;
    fn lyndon_array(pattern: *const u8, pattern_len: usize, order: *const u8, order_len: usize,
                    table: *mut u16, table_len: usize, count: *mut usize) -> u8;
    fn lyndon_last_factors(pattern: *const u8, pattern_len: usize, order: *const u8, order_len: usize,
                           table: *mut u16, table_len: usize, count: *mut usize) -> u8;
    fn lyndon_realise_array(wanted: *const u16, wanted_len: usize, order: *const u8, order_len: usize,
                            pattern: *mut u8, pattern_len: usize, count: *mut usize) -> u8;
    fn lyndon_byte_order(order: *mut u8, order_len: usize, count: *mut usize) -> u8;
    fn lyndon_longest_words(pattern: *const u8, pattern_len: usize, order: *const u8, order_len: usize,
                            starts: *mut u16, starts_len: usize, size: *mut usize, count: *mut usize) -> u8;
    fn lyndon_longest_word(pattern: *const u8, pattern_len: usize, order: *const u8, order_len: usize, start: *mut usize, size: *mut usize);
    // `yes` is a bool for C; read as a byte, so that another value than 0 and 1 is seen
    fn lyndon_is_lyndon(word: *const u8, word_len: usize, order: *const u8, order_len: usize, yes: *mut u8) -> u8;
    fn lyndon_least_rotation(pattern: *const u8, pattern_len: usize, order: *const u8, order_len: usize, start: *mut usize) -> u8;
    fn lyndon_tree(word: *const u8, word_len: usize, order: *const u8, order_len: usize,
                   nodes: *mut u16, nodes_len: usize, count: *mut usize) -> u8;
    fn lyndon_factor_prefix(pattern: *const u8, pattern_len: usize, order: *const u8, order_len: usize, table: *const u16, table_len: usize,
                            groups: *mut u16, groups_len: usize, end: usize, count: *mut usize) -> u8;
    fn lyndon_factor_suffix(pattern: *const u8, pattern_len: usize, order: *const u8, order_len: usize, table: *const u16, table_len: usize,
                            groups: *mut u16, groups_len: usize, start: usize, count: *mut usize) -> u8;
    fn lyndon_compare(first: *const u8, first_len: usize, second: *const u8, second_len: usize, order: *const u8, order_len: usize,
                      shared: *mut usize, smaller: *mut u8) -> u8;
    fn lyndon_write_listing(pattern: *const u8, pattern_len: usize, order: *const u8, order_len: usize,
                            text: *mut u8, text_len: usize, count: *mut usize) -> u8;
    fn lyndon_read_block(bytes: *const u8, bytes_len: usize, place: *mut usize, count: *mut usize) -> u8;
    fn lyndon_write_block(pattern: *const u8, pattern_len: usize, bytes: *mut u8, bytes_len: usize, count: *mut usize) -> u8;
    fn lyndon_edit(pattern: *const u8, pattern_len: usize, order: *const u8, order_len: usize,
                   array: *const u16, array_len: usize, last: *const u16, last_len: usize, from: usize, to: usize,
                   block: *const u8, block_len: usize, middle: *mut Group, middle_len: usize, starts: *mut u16, starts_len: usize) -> EditAnswer;
    fn lyndon_interface() -> u32;
    fn lyndon_edit_interface() -> u32;
}

/// The interface's number as each of the two archives tells it.
pub fn interfaces() -> [u32; 2] {
    unsafe { [lyndon_interface(), lyndon_edit_interface()] }
}

// SAFETY, of each call below: a slice's pointer and length are passed as they are, a `&mut` overlaps nothing, and the engine keeps none of them.

fn fill<T>(call: Fill<T>, pattern: &[u8], order: &[u8], row: &mut [T]) -> Answer {
    let mut count = UNSET;
    let refusal = unsafe { call(pattern.as_ptr(), pattern.len(), order.as_ptr(), order.len(), row.as_mut_ptr(), row.len(), &mut count) };
    (refusal, [count, 0])
}

pub fn factor(pattern: &[u8], order: &[u8], groups: &mut [u16]) -> Answer {
    fill(lyndon_factor, pattern, order, groups)
}

pub fn array(pattern: &[u8], order: &[u8], table: &mut [u16]) -> Answer {
    fill(lyndon_array, pattern, order, table)
}

pub fn last_factors(pattern: &[u8], order: &[u8], table: &mut [u16]) -> Answer {
    fill(lyndon_last_factors, pattern, order, table)
}

pub fn realise_array(wanted: &[u16], order: &[u8], pattern: &mut [u8]) -> Answer {
    let (ranks, ranks_len) = (order.as_ptr(), order.len());
    let mut count = UNSET;
    let refusal =
        unsafe { lyndon_realise_array(wanted.as_ptr(), wanted.len(), ranks, ranks_len, pattern.as_mut_ptr(), pattern.len(), &mut count) };
    (refusal, [count, 0])
}

pub fn byte_order(order: &mut [u8]) -> Answer {
    let mut count = UNSET;
    let refusal = unsafe { lyndon_byte_order(order.as_mut_ptr(), order.len(), &mut count) };
    (refusal, [count, 0])
}

/// Length, then the number of starts.
#[rustfmt::skip]
pub fn longest_words(pattern: &[u8], order: &[u8], starts: &mut [u16]) -> Answer {
    let (mut size, mut count) = (UNSET, UNSET);
    let refusal = unsafe {
        lyndon_longest_words(pattern.as_ptr(), pattern.len(), order.as_ptr(), order.len(), starts.as_mut_ptr(), starts.len(),
                             &mut size, &mut count)
    };
    (refusal, [size, count])
}

/// Start, then size; it answers no refusal's number.
pub fn longest_word(pattern: &[u8], order: &[u8]) -> [usize; 2] {
    let (mut start, mut size) = (UNSET, UNSET);
    unsafe { lyndon_longest_word(pattern.as_ptr(), pattern.len(), order.as_ptr(), order.len(), &mut start, &mut size) };
    [start, size]
}

/// 1 for yes, 0 for no.
pub fn is_lyndon(word: &[u8], order: &[u8]) -> Answer {
    let mut yes = 0xEE;
    let refusal = unsafe { lyndon_is_lyndon(word.as_ptr(), word.len(), order.as_ptr(), order.len(), &mut yes) };
    (refusal, [usize::from(yes), 0])
}

pub fn least_rotation(pattern: &[u8], order: &[u8]) -> Answer {
    let mut start = UNSET;
    let refusal = unsafe { lyndon_least_rotation(pattern.as_ptr(), pattern.len(), order.as_ptr(), order.len(), &mut start) };
    (refusal, [start, 0])
}

/// Length of the common beginning, then 1 or 2 for the smaller string, 0 for equal ones.
#[rustfmt::skip]
pub fn compare(first: &[u8], second: &[u8], order: &[u8]) -> Answer {
    let (mut shared, mut smaller) = (UNSET, 0xEE);
    let refusal = unsafe {
        lyndon_compare(first.as_ptr(), first.len(), second.as_ptr(), second.len(), order.as_ptr(), order.len(), &mut shared, &mut smaller)
    };
    (refusal, [shared, usize::from(smaller)])
}

pub fn write_listing(pattern: &[u8], order: &[u8], text: &mut [u8]) -> Answer {
    fill(lyndon_write_listing, pattern, order, text)
}

/// Place, then count.
pub fn read_block(bytes: &[u8]) -> Answer {
    let (mut place, mut count) = (UNSET, UNSET);
    let refusal = unsafe { lyndon_read_block(bytes.as_ptr(), bytes.len(), &mut place, &mut count) };
    (refusal, [place, count])
}

pub fn write_block(pattern: &[u8], bytes: &mut [u8]) -> Answer {
    let mut count = UNSET;
    let refusal = unsafe { lyndon_write_block(pattern.as_ptr(), pattern.len(), bytes.as_mut_ptr(), bytes.len(), &mut count) };
    (refusal, [count, 0])
}

pub fn tree(word: &[u8], order: &[u8], nodes: &mut [u16]) -> Answer {
    fill(lyndon_tree, word, order, nodes)
}

#[rustfmt::skip]
fn part(call: Part, pattern: &[u8], order: &[u8], table: &[u16], position: usize, groups: &mut [u16]) -> Answer {
    let mut count = UNSET;
    let refusal = unsafe {
        call(pattern.as_ptr(), pattern.len(), order.as_ptr(), order.len(), table.as_ptr(), table.len(),
             groups.as_mut_ptr(), groups.len(), position, &mut count)
    };
    (refusal, [count, 0])
}

pub fn factor_prefix(pattern: &[u8], order: &[u8], last: &[u16], end: usize, groups: &mut [u16]) -> Answer {
    part(lyndon_factor_prefix, pattern, order, last, end, groups)
}

pub fn factor_suffix(pattern: &[u8], order: &[u8], array: &[u16], start: usize, groups: &mut [u16]) -> Answer {
    part(lyndon_factor_suffix, pattern, order, array, start, groups)
}

#[rustfmt::skip]
pub fn edit(g: &Given, middle: &mut [Group], starts: &mut [u16]) -> EditAnswer {
    let (order, array, last, block) = (g.order.as_ptr(), g.array.as_ptr(), g.last.as_ptr(), g.block.as_ptr());
    let (rows, places) = (middle.as_mut_ptr(), starts.as_mut_ptr());
    unsafe {
        lyndon_edit(g.pattern.as_ptr(), g.pattern.len(), order, g.order.len(), array, g.array.len(), last, g.last.len(),
                    g.from, g.to, block, g.block.len(), rows, middle.len(), places, starts.len())
    }
}
