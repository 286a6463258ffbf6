//! Definite length blocks as one writes and reads them in safe Rust. `write` copies the bytes one by one, as the engine does, with checked
//! indices; `write_by_slices` copies them by `copy_from_slice`. The three calls are not inlined, so that a tool finds them by name.
#![forbid(unsafe_code)]
use crate::inputs::SIZE;
use crate::plain_text::digits;

/// Whether there is a block of the pattern, and the buffer has room for it.
fn fits(pattern: &[u8], block: &[u8]) -> bool {
    pattern.len() <= SIZE && 2 + digits(pattern.len()) + pattern.len() <= block.len()
}

/// Writes the header for a count, and answers the place behind it.
fn header(mut count: usize, block: &mut [u8]) -> usize {
    let end = 2 + digits(count);
    block[0] = b'#';
    block[1] = b'0' + (end - 2) as u8;
    for digit in block[2..end].iter_mut().rev() {
        *digit = b'0' + (count % 10) as u8;
        count /= 10;
    }
    end
}

/// Writes bytes from a place on, and answers the place behind them.
fn put(bytes: &[u8], buffer: &mut [u8], at: usize) -> usize {
    for k in 0..bytes.len() {
        buffer[at + k] = bytes[k];
    }
    at + bytes.len()
}

/// Writes the block of a pattern and answers its length; where it does not fit it answers 0 and writes nothing.
#[inline(never)]
pub fn write(pattern: &[u8], block: &mut [u8]) -> usize {
    if !fits(pattern, block) {
        return 0;
    }
    let place = header(pattern.len(), block);
    put(pattern, block, place)
}

/// The same, the bytes copied at once.
#[inline(never)]
pub fn write_by_slices(pattern: &[u8], block: &mut [u8]) -> usize {
    if !fits(pattern, block) {
        return 0;
    }
    let place = header(pattern.len(), block);
    let end = place + pattern.len();
    block[place..end].copy_from_slice(pattern);
    end
}

/// The place and the count of the bytes within a block.
#[inline(never)]
pub fn read(block: &[u8]) -> Option<(usize, usize)> {
    let [b'#', said @ b'1'..=b'9', behind @ ..] = block else { return None };
    let (number, bytes) = behind.split_at_checked(usize::from(said - b'0'))?;
    let mut count = 0;
    for digit in number {
        if !digit.is_ascii_digit() {
            return None;
        }
        count = 10 * count + usize::from(digit - b'0');
    }
    let close = bytes.get(count..)?;
    (count <= SIZE && (close.is_empty() || close == b"\n")).then_some((2 + number.len(), count))
}
