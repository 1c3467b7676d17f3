//! Bodies by length and in chunks.

use crate::bytes::*;
use crate::{fault, Stop};

pub const MAX_BODY: usize = 262_143;
const MAX_SIZE_DIGITS: usize = 5;

/// The body by length that begins at `start`, and where it ends. The length has been judged.
pub fn read_by_length(bytes: &[u8], start: usize, length: usize) -> Result<(Vec<u8>, usize), Stop> {
    let end = start + length;
    if bytes.len() < end {
        return Err(Stop::More);
    }
    Ok((bytes[start..end].to_vec(), end))
}

/// The chunked body that begins at `start`, and where it ends.
pub fn read_chunked(bytes: &[u8], start: usize) -> Result<(Vec<u8>, usize), Stop> {
    let mut body = Vec::new();
    let mut at = start;
    loop {
        let first_digit = at;
        let mut size = 0;
        loop {
            let byte = *bytes.get(at).ok_or(Stop::More)?;
            let digits = at - first_digit;
            match hex_digit(byte) {
                Some(digit) if digits < MAX_SIZE_DIGITS => size = size * 16 + usize::from(digit),
                None if byte == CR && digits > 0 => break,
                _ => return fault(8, at),
            }
            at += 1;
        }
        at = read_line_end(bytes, at)?;
        if size == 0 {
            return Ok((body, read_line_end(bytes, at)?));
        }
        if body.len() + size > MAX_BODY {
            return fault(7, first_digit);
        }
        if bytes.len() < at + size {
            return Err(Stop::More);
        }
        body.extend(&bytes[at..at + size]);
        at = read_line_end(bytes, at + size)?;
    }
}

/// CR LF must stand here; where it ends.
fn read_line_end(bytes: &[u8], at: usize) -> Result<usize, Stop> {
    for (i, wanted) in [(at, CR), (at + 1, LF)] {
        match bytes.get(i) {
            None => return Err(Stop::More),
            Some(&byte) if byte != wanted => return fault(8, i),
            Some(_) => {}
        }
    }
    Ok(at + 2)
}
