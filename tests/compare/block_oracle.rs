//! Definite length blocks by the words of IEEE 488.2 and the request, each tried out as it reads: slow, and right at sight. Nothing here
//! knows how the engine works.
use crate::right::{Holds, LIMIT};

/// The place and the count of the bytes within a block.
pub type Extent = (usize, usize);

/// The number that some digits give; nothing where one of them is no digit.
fn number(digits: &[u8]) -> Option<usize> {
    let mut value = 0;
    for c in digits {
        value = 10 * value + b"0123456789".iter().position(|digit| digit == c)?;
    }
    Some(value)
}

/// Every way to read a block: the hash mark, a digit 1 to 9, so many digits, the bytes that they count, and a line feed or none.
pub fn readings(block: &[u8]) -> Vec<Extent> {
    let mut found = Vec::new();
    for said in 1..=9 {
        let Some(behind) = block.strip_prefix(&[b'#', b'0' + said as u8]) else { continue };
        let Some((digits, bytes)) = behind.split_at_checked(said) else { continue };
        if number(digits) == Some(bytes.len()) {
            found.push((2 + said, bytes.len()));
        }
        if bytes.last() == Some(&b'\n') && number(digits) == Some(bytes.len() - 1) {
            found.push((2 + said, bytes.len() - 1));
        }
    }
    found
}

/// How the bytes read as a block, if they are one.
pub fn extent(block: &[u8]) -> Option<Extent> {
    let found = readings(block);
    assert!(found.len() <= 1, "{block:?} reads as {found:?}");
    found.first().copied()
}

/// What the header says of the count, right or wrong.
pub fn said(block: &[u8]) -> Option<usize> {
    let digits = number(block.get(1..2)?)?;
    number(block.get(2..2 + digits)?)
}

/// The refusals that hold of a reader; a block that says too many bytes has 1 even where it has not as many.
pub fn read_holds(block: &[u8]) -> Holds {
    let long = said(block).is_some_and(|count| count > LIMIT);
    Holds::default().and(9, extent(block).is_none()).and(1, long)
}

/// The block of a pattern, with the fewest digits and no line feed.
pub fn written(pattern: &[u8]) -> Vec<u8> {
    let count = pattern.len().to_string();
    [format!("#{}{count}", count.len()).as_bytes(), pattern].concat()
}
