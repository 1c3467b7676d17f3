//! Requests: what a client may send, and the canonical form.

use crate::body::{read_by_length, read_chunked, MAX_BODY};
use crate::bytes::*;
use crate::head::{canonical_fields, read_head, Head};
use crate::rules::Server;
use crate::{fault, Stop};

pub const MAX_CANONICAL_HEAD: usize = 16_384;
const MAX_METHOD: usize = 16;

/// A request that is good as far as the rules of its server, which have not been asked.
#[derive(Clone, Debug, PartialEq, Eq)]
pub struct Request {
    /// The index of the server that `host` chose.
    pub server: usize,
    pub method: Vec<u8>,
    /// The parts of the canonical path.
    pub parts: Vec<Vec<u8>>,
    /// The canonical head, its empty line included.
    pub head: Vec<u8>,
    /// The body, for the methods that have one.
    pub body: Option<Vec<u8>>,
}

impl Request {
    /// The canonical form.
    pub fn text(&self) -> Vec<u8> {
        [self.head.as_slice(), self.body.as_deref().unwrap_or(b"")].concat()
    }
}

/// What there is at the start of a client's bytes.
#[derive(Clone, Debug, PartialEq, Eq)]
pub enum Read {
    /// More bytes are wanted.
    More,
    /// A fault after which the client's connection ends.
    End { number: u8, place: usize },
    /// A fault after which the client goes on behind these bytes.
    Refused { number: u8, place: usize, taken: usize },
    /// A request that the rules let pass.
    Pass { request: Request, taken: usize },
}

/// Reads one request from the start of these bytes, and asks the rules.
pub fn read_request(bytes: &[u8], servers: &[Server]) -> Read {
    let (framed, taken) = match read_framed(bytes, servers) {
        Err(Stop::More) => return Read::More,
        Err(Stop::Fault { number, place }) => return Read::End { number, place },
        Ok(found) => found,
    };
    let number_and_place = match canonical(&framed) {
        Ok(request) if servers[request.server].allows(&request.method, &request.parts) => return Read::Pass { request, taken },
        Ok(_) => (12, 0),
        Err(found) => found,
    };
    match number_and_place {
        (2, place) => Read::End { number: 2, place },
        (number, place) => Read::Refused { number, place, taken },
    }
}

/// A request of which it is known where it ends; its target is still to be judged.
struct Framed {
    server: usize,
    method: Vec<u8>,
    target: Vec<u8>,
    target_start: usize,
    head: Head,
    body: Option<Vec<u8>>,
}

/// The faults 1 to 8, in their order.
fn read_framed(bytes: &[u8], servers: &[Server]) -> Result<(Framed, usize), Stop> {
    let head = read_head(bytes, judge_first_line)?;
    let mut words = head.first_line.split(|&b| b == SPACE);
    let method = words.next().unwrap().to_vec();
    let target = words.next().unwrap().to_vec();
    let server = choose_server(&head, servers)?;
    let framing = find_framing(&head)?;
    let has_body = [b"POST".as_slice(), b"PUT", b"PATCH"].contains(&method.as_slice());
    let (body, taken) = match framing {
        None if has_body => return fault(6, head.empty_line),
        Some((start, _)) if !has_body => return fault(6, start),
        None => (None, head.length),
        Some((_, Framing::Chunked)) => {
            let (body, end) = read_chunked(bytes, head.length)?;
            (Some(body), end)
        }
        Some((_, Framing::Length { length, value_start })) => {
            if length > MAX_BODY {
                return fault(7, value_start);
            }
            let (body, end) = read_by_length(bytes, head.length, length)?;
            (Some(body), end)
        }
    };
    let target_start = method.len() + 1;
    Ok((Framed { server, method, target, target_start, head, body }, taken))
}

/// Read from the left: 1 to 16 letters A to Z, a space, `/`, any bytes but a space, a space, `HTTP/1.1`, and nothing more.
fn judge_first_line(line: &[u8]) -> Option<usize> {
    let mut at = 0;
    while at < line.len() && at < MAX_METHOD && is_capital(line[at]) {
        at += 1;
    }
    if at == 0 {
        return Some(0);
    }
    for &wanted in b" /" {
        if line.get(at) != Some(&wanted) {
            return Some(at);
        }
        at += 1;
    }
    while at < line.len() && line[at] != SPACE {
        at += 1;
    }
    for &wanted in b" HTTP/1.1" {
        if line.get(at) != Some(&wanted) {
            return Some(at);
        }
        at += 1;
    }
    if at < line.len() {
        return Some(at);
    }
    None
}

/// Fault 4, or the index of the server.
fn choose_server(head: &Head, servers: &[Server]) -> Result<usize, Stop> {
    let hosts: Vec<_> = head.fields.iter().filter(|field| field.is("host")).collect();
    match hosts.as_slice() {
        [] => fault(4, head.empty_line),
        [host] => match servers.iter().position(|server| same(&server.name, &host.value)) {
            Some(server) => Ok(server),
            None => fault(4, host.value_start),
        },
        [_, second, ..] => fault(4, second.start),
    }
}

enum Framing {
    Length { length: usize, value_start: usize },
    Chunked,
}

/// Fault 5, or the one field that says how the body ends, with the start of its line.
fn find_framing(head: &Head) -> Result<Option<(usize, Framing)>, Stop> {
    let mut found = None;
    for field in head.fields.iter().filter(|field| field.is_framing()) {
        if found.is_some() {
            return fault(5, field.start);
        }
        let framing = if field.is("content-length") {
            length_of(&field.value).map(|length| Framing::Length { length, value_start: field.value_start })
        } else {
            same(&field.value, b"chunked").then_some(Framing::Chunked)
        };
        match framing {
            Some(framing) => found = Some((field.start, framing)),
            None => return fault(5, field.value_start),
        }
    }
    Ok(found)
}

/// The request in canonical form, or the fault in its target or in the length of its head, with its place.
fn canonical(framed: &Framed) -> Result<Request, (u8, usize)> {
    let (path, query) = match framed.target.iter().position(|&b| b == b'?') {
        Some(mark) => (&framed.target[..mark], &framed.target[mark + 1..]),
        None => (framed.target.as_slice(), b"".as_slice()),
    };
    let path_start = framed.target_start;
    if let Some(wrong) = wrong_in_path(path) {
        return Err((9, path_start + wrong));
    }
    if let Some(end) = wrong_part(path) {
        return Err((10, path_start + end));
    }
    if let Some(wrong) = query.iter().position(|&b| !(33..=126).contains(&b) || b == b'#') {
        return Err((11, path_start + path.len() + 1 + wrong));
    }
    let path = canonical_path(path);
    let mut head = Vec::new();
    head.extend(&framed.method);
    head.push(SPACE);
    head.extend(&path);
    if !query.is_empty() {
        head.push(b'?');
        head.extend(query);
    }
    head.extend(b" HTTP/1.1\r\n");
    head.extend(canonical_fields(&framed.head.fields));
    if let Some(body) = &framed.body {
        head.extend(format!("content-length: {}\r\n", body.len()).bytes());
    }
    head.extend(b"\r\n");
    if head.len() > MAX_CANONICAL_HEAD {
        return Err((2, framed.head.length));
    }
    Ok(Request { server: framed.server, method: framed.method.clone(), parts: parts_of(&path), head, body: framed.body.clone() })
}

/// The byte that the code at `at` stands for, where the `%` at `at` has two digits behind it in the path.
fn code_at(path: &[u8], at: usize) -> Option<u8> {
    let high = hex_digit(*path.get(at + 1)?)?;
    let low = hex_digit(*path.get(at + 2)?)?;
    Some(high * 16 + low)
}

/// The index of the first byte or code that a path may not have.
fn wrong_in_path(path: &[u8]) -> Option<usize> {
    let mut at = 0;
    while at < path.len() {
        if path[at] == b'%' {
            match code_at(path, at) {
                Some(byte) if is_plain(byte) || byte >= 128 => at += 3,
                _ => return Some(at),
            }
        } else if path[at] == b'/' || is_plain(path[at]) {
            at += 1;
        } else {
            return Some(at);
        }
    }
    None
}

/// The end of the first part that is empty or ends with a dot.
fn wrong_part(path: &[u8]) -> Option<usize> {
    let mut end = 0;
    for part in parts_of(path) {
        end += 1 + part.len();
        if part.is_empty() || canonical_path(&part).last() == Some(&b'.') {
            return Some(end);
        }
    }
    None
}

/// Codes for plain bytes undone, all other codes in capitals.
fn canonical_path(path: &[u8]) -> Vec<u8> {
    let mut out = Vec::new();
    let mut at = 0;
    while at < path.len() {
        if path[at] != b'%' {
            out.push(path[at]);
            at += 1;
            continue;
        }
        let byte = code_at(path, at).unwrap();
        if is_plain(byte) {
            out.push(byte);
        } else {
            out.extend(format!("%{byte:02X}").bytes());
        }
        at += 3;
    }
    out
}

/// A part follows each slash and goes up to the next or the path's end; the path `/` has none.
fn parts_of(path: &[u8]) -> Vec<Vec<u8>> {
    if path == b"/" {
        return Vec::new();
    }
    path.split(|&b| b == b'/').skip(1).map(|part| part.to_vec()).collect()
}
