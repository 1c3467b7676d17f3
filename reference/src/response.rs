//! Responses, and the copies that clients get.

use crate::body::{read_by_length, read_chunked, MAX_BODY};
use crate::bytes::*;
use crate::head::{canonical_fields, read_head, Head};
use crate::{fault, Stop};

#[derive(Clone, Debug, PartialEq, Eq)]
pub struct Response {
    pub status: u16,
    /// What the client gets.
    pub copy: Vec<u8>,
    /// How many bytes the response has as sent.
    pub taken: usize,
}

impl Response {
    /// After it nothing more comes for the request.
    pub fn is_final(&self) -> bool {
        self.status >= 200 || self.status == 101
    }
}

/// Reads one response to a request of this method from the start of these bytes. Every fault means that it is unreadable.
pub fn read_response(bytes: &[u8], method: &[u8]) -> Result<Response, Stop> {
    let head = read_head(bytes, judge_first_line)?;
    let status = head.first_line[9..12].iter().fold(0, |n, &b| n * 10 + u16::from(b - b'0'));
    let (body, taken) = if method == b"HEAD" || status < 200 || status == 204 || status == 304 {
        (None, head.length)
    } else {
        let (body, end) = read_body(bytes, &head)?;
        (Some(body), end)
    };
    let mut copy = head.first_line.clone();
    copy.extend(b"\r\n");
    copy.extend(canonical_fields(&head.fields));
    if let Some(body) = &body {
        copy.extend(format!("content-length: {}\r\n", body.len()).bytes());
    }
    copy.extend(b"\r\n");
    copy.extend(body.unwrap_or_default());
    Ok(Response { status, copy, taken })
}

fn read_body(bytes: &[u8], head: &Head) -> Result<(Vec<u8>, usize), Stop> {
    let framing: Vec<_> = head.fields.iter().filter(|field| field.is_framing()).collect();
    let [field] = framing.as_slice() else {
        return fault(14, 0);
    };
    if field.is("transfer-encoding") {
        return if same(&field.value, b"chunked") { read_chunked(bytes, head.length) } else { fault(14, 0) };
    }
    match length_of(&field.value) {
        Some(length) if length <= MAX_BODY => read_by_length(bytes, head.length, length),
        _ => fault(14, 0),
    }
}

/// `HTTP/1.1`, a space, three digits from 100 to 599, a space, and a phrase of bytes 32 to 126 that may be empty.
fn judge_first_line(line: &[u8]) -> Option<usize> {
    let good = line.len() >= 13
        && line.starts_with(b"HTTP/1.1 ")
        && (b'1'..=b'5').contains(&line[9])
        && is_digit(line[10])
        && is_digit(line[11])
        && line[12] == SPACE
        && line[13..].iter().all(|&b| (32..=126).contains(&b));
    if good {
        None
    } else {
        Some(0)
    }
}

/// The response that the gate itself gives for a fault.
pub fn refusal(number: u8) -> Vec<u8> {
    let status = match number {
        1 | 3 | 5 | 8 | 9 | 10 | 11 => 400,
        2 => 431,
        4 => 421,
        6 => 411,
        7 => 413,
        12 => 403,
        13 => 503,
        14 => 502,
        _ => panic!("there is no fault {number}"),
    };
    format!("HTTP/1.1 {status} {number}\r\ncontent-length: 0\r\n\r\n").into_bytes()
}
