//! Heads: lines, the window, fields, and what is kept of them in canonical form. The same for requests and responses.

use crate::bytes::*;
use crate::{fault, Stop};

/// A head has so many bytes to end in.
pub const WINDOW: usize = 20_480;
pub const MAX_FIELDS: usize = 64;
pub const MAX_NAME: usize = 64;

/// The nine fields that are always dropped.
pub const DROPPED: [&str; 9] = ["content-length", "transfer-encoding", "connection", "keep-alive", "te", "trailer", "upgrade", "expect", "proxy-connection"];

#[derive(Clone, Debug, PartialEq, Eq)]
pub struct Field {
    /// Where its line begins.
    pub start: usize,
    /// As sent.
    pub name: Vec<u8>,
    /// Without the blanks at both ends; inside as sent.
    pub value: Vec<u8>,
    /// Where its value begins: after the blanks behind the colon, and at the line's end where it is empty.
    pub value_start: usize,
}

impl Field {
    pub fn is(&self, name: &str) -> bool {
        same(&self.name, name.as_bytes())
    }

    pub fn is_framing(&self) -> bool {
        self.is("content-length") || self.is("transfer-encoding")
    }
}

#[derive(Clone, Debug, PartialEq, Eq)]
pub struct Head {
    /// Without its CR LF.
    pub first_line: Vec<u8>,
    pub fields: Vec<Field>,
    /// Where the empty line begins.
    pub empty_line: usize,
    /// How many bytes the head has with its empty line.
    pub length: usize,
}

/// A line whose end is known.
pub struct Line {
    /// The index of its CR LF or of its stray byte.
    pub end: usize,
    pub stray: bool,
}

/// The line that begins at `start`, once it has ended or its stray byte is known. Only the window is looked at.
pub fn cut_line(bytes: &[u8], start: usize) -> Result<Line, Stop> {
    let window = &bytes[..bytes.len().min(WINDOW)];
    let not_ended = if bytes.len() >= WINDOW { fault(2, WINDOW) } else { Err(Stop::More) };
    let Some(end) = (start..window.len()).find(|&i| window[i] == CR || window[i] == LF) else {
        return not_ended;
    };
    if window[end] == LF {
        return Ok(Line { end, stray: true });
    }
    match window.get(end + 1) {
        None => not_ended,
        Some(&LF) => Ok(Line { end, stray: false }),
        Some(_) => Ok(Line { end, stray: true }),
    }
}

/// Reads a head. `judge_first` is given the bytes of the first line and says where the first of them stands that may not, and where the line ends too early,
/// its length.
pub fn read_head(bytes: &[u8], judge_first: fn(&[u8]) -> Option<usize>) -> Result<Head, Stop> {
    let line = cut_line(bytes, 0)?;
    let first_line = &bytes[..line.end];
    if let Some(place) = judge_first(first_line) {
        return fault(1, place);
    }
    if line.stray {
        return fault(1, line.end);
    }
    let mut at = line.end + 2;
    let mut fields = Vec::new();
    loop {
        let line = cut_line(bytes, at)?;
        if line.end == at && !line.stray {
            return Ok(Head { first_line: first_line.to_vec(), fields, empty_line: at, length: at + 2 });
        }
        if fields.len() == MAX_FIELDS {
            return fault(2, at);
        }
        fields.push(read_field(bytes, at, line.end, line.stray)?);
        at = line.end + 2;
    }
}

fn read_field(bytes: &[u8], start: usize, end: usize, stray: bool) -> Result<Field, Stop> {
    let colon = (start..end).find(|&i| bytes[i] == b':');
    let name_end = colon.unwrap_or(end);
    if name_end - start > MAX_NAME {
        return fault(2, start + MAX_NAME);
    }
    if name_end == start {
        return fault(3, start);
    }
    if let Some(wrong) = (start..name_end).find(|&i| !is_name_byte(bytes[i])) {
        return fault(3, wrong);
    }
    let Some(colon) = colon else {
        return fault(3, end);
    };
    if let Some(wrong) = (colon + 1..end).find(|&i| !is_value_byte(bytes[i])) {
        return fault(3, wrong);
    }
    if stray {
        return fault(3, end);
    }
    let value_start = (colon + 1..end).find(|&i| !is_blank(bytes[i])).unwrap_or(end);
    Ok(Field { start, name: bytes[start..name_end].to_vec(), value: trimmed(&bytes[colon + 1..end]).to_vec(), value_start })
}

/// Whether some `connection` field names this field.
fn is_named(fields: &[Field], name: &[u8]) -> bool {
    fields.iter().filter(|field| field.is("connection")).any(|field| field.value.split(|&b| b == b',').any(|named| same(trimmed(named), name)))
}

fn is_kept(fields: &[Field], field: &Field) -> bool {
    if field.is("host") {
        return true;
    }
    !DROPPED.iter().any(|name| field.is(name)) && !is_named(fields, &field.name)
}

/// The fields that are kept, each as its canonical line with CR LF.
pub fn canonical_fields(fields: &[Field]) -> Vec<u8> {
    let mut out = Vec::new();
    for field in fields.iter().filter(|field| is_kept(fields, field)) {
        out.extend(lower(&field.name));
        out.extend(b": ");
        out.extend(squeezed(&field.value));
        out.extend(b"\r\n");
    }
    out
}
