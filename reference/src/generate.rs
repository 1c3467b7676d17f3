//! Inputs from a seed: settings, scripts, and one client's bytes.
//!
//! While a script is made it is played through the gate of this package, so that responses can be made for what was asked, and most scripts go deep.

use crate::bytes::*;
use crate::gate::{ClientState, Gate, CLIENTS};
use crate::random::Random;
use crate::request::{read_request, Read};
use crate::rules::Server;
use crate::script::{lines_of, read_line, read_settings, Line, Party};

/// A script as lines without LF.
#[derive(Clone, Debug, PartialEq, Eq)]
pub struct Script {
    pub lines: Vec<Vec<u8>>,
    /// Whether the last line has its LF.
    pub last_lf: bool,
}

impl Script {
    pub fn text(&self) -> Vec<u8> {
        let mut text = self.lines.join(&LF);
        if self.last_lf && !self.lines.is_empty() {
            text.push(LF);
        }
        text
    }
}

/// Settings and one client's bytes, for `explain`.
#[derive(Clone, Debug, PartialEq, Eq)]
pub struct Input {
    pub settings: Script,
    pub bytes: Vec<u8>,
}

// ---- settings

const METHODS: [&str; 8] = ["GET", "HEAD", "POST", "PUT", "PATCH", "DELETE", "OPTIONS", "A"];
const LONG_METHOD: &str = "ABCDEFGHIJKLMNOP";
const PARTS: [&str; 12] = ["a", "b", "admin", "orders", "x-y_z~", "a.b", "..a", "@:=,+", "1", "(*)", "e", "!$&'"];
const SERVER_NAMES: [&str; 8] = ["h", "old.example", "New.Example", "a-b.c", "1.2", "..", "H2", "x"];

fn some_method(r: &mut Random) -> Vec<u8> {
    match r.below(40) {
        0 => LONG_METHOD.into(),
        1 => (0..r.between(1, 16)).map(|_| b'A' + r.below(26) as u8).collect(),
        2..=15 => b"GET".to_vec(),
        16..=22 => b"POST".to_vec(),
        23..=27 => b"HEAD".to_vec(),
        _ => r.pick(&METHODS).as_bytes().to_vec(),
    }
}

fn rule(r: &mut Random, yes: bool, methods: &[u8], parts: usize) -> Vec<u8> {
    let mut line = if yes { b"allow ".to_vec() } else { b"deny ".to_vec() };
    line.extend(methods);
    line.push(SPACE);
    if parts == 0 {
        line.push(b'/');
    }
    for _ in 0..parts {
        line.push(b'/');
        let part = *r.pick(&PARTS);
        line.extend(lower(part.as_bytes()));
        if r.chance(20) {
            line.push(b'.');
        }
    }
    line
}

fn some_methods(r: &mut Random) -> Vec<u8> {
    if r.chance(50) {
        return b"-".to_vec();
    }
    let count = if r.chance(100) { 8 } else { r.between(1, 3) };
    (0..count).map(|_| some_method(r)).collect::<Vec<_>>().join(&b',')
}

fn some_rule(r: &mut Random) -> Vec<u8> {
    let methods = some_methods(r);
    let parts = if r.chance(20) { r.between(14, 16) } else { r.below(4) };
    let yes = r.chance(500);
    rule(r, yes, &methods, parts)
}

/// Settings that are good.
pub fn some_settings(r: &mut Random) -> Vec<Vec<u8>> {
    let count = match r.below(100) {
        0 => 0,
        1..=4 => 8,
        5..=50 => 1,
        _ => r.between(2, 4),
    };
    let mut lines: Vec<Vec<u8>> = Vec::new();
    let first_name = r.below(SERVER_NAMES.len());
    for i in 0..count {
        let mut name = SERVER_NAMES[(first_name + i) % SERVER_NAMES.len()].as_bytes().to_vec();
        if r.chance(15) {
            name = (0..r.between(252, 253)).map(|_| *r.pick(b"abcXYZ019-.")).collect();
        }
        lines.push([b"server ", name.as_slice()].concat());
        let rules = match r.below(50) {
            0 => 64,
            1 => 63,
            2..=25 => 0,
            _ => r.between(1, 6),
        };
        for _ in 0..rules {
            lines.push(some_rule(r));
        }
        if rules < 64 && r.chance(930) {
            let methods = METHODS.join(",");
            lines.push(rule(r, true, methods.as_bytes(), 0));
        }
    }
    if r.chance(200) {
        for _ in 0..r.between(1, 3) {
            let at = r.below(lines.len() + 1);
            lines.insert(at, some_comment(r));
        }
    }
    lines
}

fn some_comment(r: &mut Random) -> Vec<u8> {
    r.pick(&[b"".as_slice(), b"#", b"# server h", b"#\t\r\x00\xff \"", b"", b"##"]).to_vec()
}

// ---- heads

const NAMES: [&str; 18] = [
    "accept",
    "x",
    "x-long-name-with-1",
    "cookie",
    "keep-alive",
    "te",
    "trailer",
    "upgrade",
    "expect",
    "proxy-connection",
    "connection",
    "x-a",
    "x-b",
    "close",
    "-",
    "0",
    "date",
    "via",
];
const BLANKS: [&str; 8] = ["", "", " ", " ", " ", "\t", "  ", " \t "];
const VALUES: [&str; 16] = [
    "1",
    "",
    "a b",
    "a  b",
    "a\tb",
    "a \t b \t\t c",
    "text/html, */*;q=0.8",
    ":",
    "a:b:",
    "\"q\" \\ ; < > { } | ^ ` ' # % ?",
    "100-continue",
    "close",
    "chunked",
    "!",
    "~",
    "5",
];

fn odd_case(r: &mut Random, name: &[u8]) -> Vec<u8> {
    match r.below(5) {
        0 => name.to_ascii_uppercase(),
        1 => name.to_ascii_lowercase(),
        2 => name.iter().map(|b| if r.chance(500) { b.to_ascii_uppercase() } else { b.to_ascii_lowercase() }).collect(),
        _ => name.to_vec(),
    }
}

fn field(r: &mut Random, name: &[u8], value: &[u8]) -> Vec<u8> {
    let before = *r.pick(&BLANKS);
    let after = if r.chance(700) { "" } else { *r.pick(&BLANKS) };
    [odd_case(r, name).as_slice(), b":", before.as_bytes(), value, after.as_bytes()].concat()
}

/// Names with commas and blanks, as in a `connection` field.
fn some_list(r: &mut Random) -> Vec<u8> {
    let mut out = Vec::new();
    for i in 0..r.between(1, 4) {
        if i > 0 {
            out.extend(r.pick(&[",", ", ", " ,", ",,", "\t,\t", " , ,", "; "]).as_bytes());
        }
        let more = ["host", "content-length", "transfer-encoding", "close", "upgrade", ""];
        let name = if r.chance(250) { *r.pick(&more) } else { *r.pick(&NAMES) };
        out.extend(odd_case(r, name.as_bytes()));
    }
    out
}

fn some_field(r: &mut Random) -> Vec<u8> {
    let name = *r.pick(&NAMES);
    if name == "connection" || r.chance(60) {
        let list = some_list(r);
        return field(r, b"connection", &list);
    }
    let value = *r.pick(&VALUES);
    field(r, name.as_bytes(), value.as_bytes())
}

fn some_fields(r: &mut Random) -> Vec<Vec<u8>> {
    let count = if r.chance(30) { r.between(5, 20) } else { r.below(4) };
    (0..count).map(|_| some_field(r)).collect()
}

fn insert_anywhere<T>(r: &mut Random, list: &mut Vec<T>, item: T) {
    let at = r.below(list.len() + 1);
    list.insert(at, item);
}

fn some_length(r: &mut Random, length: usize) -> Vec<u8> {
    let digits = length.to_string();
    let zeros = if r.chance(150) { r.between(0, 6 - digits.len().min(6)) } else { 0 };
    ("0".repeat(zeros) + &digits).into_bytes()
}

fn some_data(r: &mut Random) -> Vec<u8> {
    let length = match r.below(20) {
        0..=4 => 0,
        5..=17 => r.between(1, 12),
        18 => r.between(13, 80),
        _ => r.between(81, 700),
    };
    let pool = b"xyz=1&\r\n\r\n:GET / HTTP/1.1 0\x00\xff";
    (0..length).map(|_| *r.pick(pool)).collect()
}

fn chunk_size(r: &mut Random, size: usize) -> Vec<u8> {
    let digits = if r.chance(500) { format!("{size:x}") } else { format!("{size:X}") };
    let zeros = if r.chance(200) { r.between(0, 5usize.saturating_sub(digits.len())) } else { 0 };
    ("0".repeat(zeros) + &digits).into_bytes()
}

/// The data in chunks. `odd` spoils one of them.
fn in_chunks(r: &mut Random, data: &[u8], odd: bool) -> Vec<u8> {
    let mut pieces: Vec<&[u8]> = Vec::new();
    let mut rest = data;
    let largest = *r.pick(&[1, 3, 20, 1000]);
    while !rest.is_empty() {
        let (piece, behind) = rest.split_at(r.between(1, rest.len().min(largest)));
        pieces.push(piece);
        rest = behind;
    }
    pieces.push(b"");
    let spoiled = if odd { r.below(pieces.len()) } else { pieces.len() };
    let mut out = Vec::new();
    for (i, piece) in pieces.iter().enumerate() {
        let mut size = chunk_size(r, piece.len());
        let mut end = b"\r\n".to_vec();
        let mut data = piece.to_vec();
        let mut behind = b"\r\n".to_vec();
        if i == spoiled {
            match r.below(16) {
                0 => size = chunk_size(r, piece.len() + 1),
                1 => size = chunk_size(r, piece.len().saturating_sub(1)),
                2 => size.extend(b";a=b"),
                3 => size.push(*r.pick(b" \tg;,.x-+\x00\x80")),
                4 => size.insert(0, *r.pick(b" \t+-x0\r\n")),
                5 => size = format!("0x{}", piece.len()).into_bytes(),
                6 => size = format!("{:06x}", piece.len()).into_bytes(),
                7 => size.clear(),
                8 => end = r.pick(&[b"\n".as_slice(), b"\r", b"\r\r\n", b"\n\r", b"", b"\r\n\r\n"]).to_vec(),
                9 => behind = r.pick(&[b"\n".as_slice(), b"\r", b"\r\r\n", b"\n\r", b"", b"\r\n\r\n", b" \r\n"]).to_vec(),
                10 => behind = b"X: trailer\r\n\r\n".to_vec(),
                11 => data.push(b'x'),
                12 => drop(data.pop()),
                13 => {
                    size = r.pick(&[b"fffff".as_slice(), b"40000", b"3ffff", b"FFFFF", b"100000"]).to_vec();
                    if r.chance(400) {
                        end = r.pick(&[b"\r".as_slice(), b"\n", b"\rx", b""]).to_vec();
                    }
                }
                14 => size = format!("{:05x}", piece.len()).into_bytes(),
                _ => size.push(b'0'),
            }
        }
        out.extend([size, end, data, behind].concat());
    }
    out
}

// ---- requests

#[derive(Clone)]
struct Draft {
    method: Vec<u8>,
    target: Vec<u8>,
    version: Vec<u8>,
    fields: Vec<Vec<u8>>,
    body: Vec<u8>,
}

impl Draft {
    fn text(&self) -> Vec<u8> {
        let mut out = [self.method.as_slice(), b" ", &self.target, b" ", &self.version, b"\r\n"].concat();
        for field in &self.fields {
            out.extend(field);
            out.extend(b"\r\n");
        }
        out.extend(b"\r\n");
        out.extend(&self.body);
        out
    }
}

const BODY_METHODS: [&[u8]; 3] = [b"POST", b"PUT", b"PATCH"];

fn some_part(r: &mut Random) -> Vec<u8> {
    let plain = *r.pick(&PARTS);
    let mut part = odd_case(r, plain.as_bytes());
    if r.chance(250) {
        part = part.iter().flat_map(|&b| if r.chance(300) { code(r, b) } else { vec![b] }).collect();
    }
    if r.chance(100) {
        let byte = r.between(128, 255) as u8;
        let at = r.below(part.len() + 1);
        // A code may come to stand inside another one: then the target is refused.
        let code = code(r, byte);
        part.splice(at..at, code);
    }
    part
}

fn code(r: &mut Random, byte: u8) -> Vec<u8> {
    let text = if r.chance(500) { format!("%{byte:02x}") } else { format!("%{byte:02X}") };
    text.into_bytes()
}

fn some_target(r: &mut Random) -> Vec<u8> {
    let mut target = Vec::new();
    let parts = if r.chance(20) { r.between(10, 20) } else { r.below(4) };
    if parts == 0 {
        target.push(b'/');
    }
    for _ in 0..parts {
        target.push(b'/');
        target.extend(some_part(r));
    }
    if r.chance(250) {
        target.push(b'?');
        for _ in 0..r.below(6) {
            target.extend(r.pick(&["?", "a=b", "%", "%zz", "/", "//", "..", "&", "%2e", "\"", "~", "!", "{}|\\^`", "."]).as_bytes());
        }
    }
    target
}

fn draft(r: &mut Random, servers: &[Server]) -> Draft {
    let host: Vec<u8> = if servers.is_empty() { b"h".to_vec() } else { r.pick(servers).name.clone() };
    let method = some_method(r);
    let mut fields = some_fields(r);
    let host = if r.chance(300) { odd_case(r, &host) } else { host };
    let host_line = field(r, b"host", &host);
    if r.chance(500) {
        fields.insert(0, host_line);
    } else {
        insert_anywhere(r, &mut fields, host_line);
    }
    let mut body = Vec::new();
    if BODY_METHODS.contains(&method.as_slice()) {
        let data = some_data(r);
        let line = if r.chance(500) {
            let length = some_length(r, data.len());
            body = data;
            field(r, b"content-length", &length)
        } else {
            body = in_chunks(r, &data, false);
            let value = odd_case(r, b"chunked");
            field(r, b"transfer-encoding", &value)
        };
        insert_anywhere(r, &mut fields, line);
    }
    Draft { method, target: some_target(r), version: b"HTTP/1.1".to_vec(), fields, body }
}

/// A request that is let pass, where a few tries find one.
fn good_request(r: &mut Random, servers: &[Server]) -> Vec<u8> {
    let mut text = draft(r, servers).text();
    for _ in 0..8 {
        if let Read::Pass { taken, .. } = read_request(&text, servers) {
            if taken == text.len() {
                return text;
            }
        }
        text = draft(r, servers).text();
    }
    text
}

const ODD_LENGTHS: [&str; 20] =
    ["0", "5", "+5", "-5", "05", "000005", "0000005", "1000000", "262143", "262144", "999999", "5,5", "5, 5", "5 5", "0x5", "5.0", "", "five", "5;", "\t5 "];
const ODD_ENCODINGS: [&str; 10] =
    ["chunked", "CHUNKED", "chunked, chunked", "gzip, chunked", "identity", "", "chunked;a=b", "\tchunked\t", "chun ked", "xchunked"];

fn odd_framing(r: &mut Random) -> Vec<u8> {
    if r.chance(500) {
        let value = *r.pick(&ODD_LENGTHS);
        field(r, b"content-length", value.as_bytes())
    } else {
        let value = *r.pick(&ODD_ENCODINGS);
        field(r, b"transfer-encoding", value.as_bytes())
    }
}

fn odd_field(r: &mut Random) -> Vec<u8> {
    let odd: [&[u8]; 22] = [
        b"x",
        b"x y: 1",
        b"x : 1",
        b"x\t: 1",
        b" x: 1",
        b"\tx: 1",
        b" ",
        b": 1",
        b":",
        b"x_y: 1",
        b"x: a\x00b",
        b"x: \x7f",
        b"x: \x80\xff",
        b"x\x80: 1",
        b"x: a\x0bb",
        b"x(: 1",
        b"x;y: 1",
        b"x.y: 1",
        b"x: a\rb",
        b"x: a\nb",
        b"x: 1\r",
        b"x\r: 1",
    ];
    r.pick(&odd).to_vec()
}

/// A near miss: one thing of the draft is changed.
fn spoil(r: &mut Random, draft: &mut Draft, servers: &[Server]) {
    match r.below(15) {
        0 | 1 => {
            let odd: [&[u8]; 32] = [
                b"%2f", b"%2F", b"%25", b"%7f", b"%", b"%4", b"%zz", b"%2E", b"%2e", b"..", b".", b"/", b"//", b"#", b"?", b"\t", b"\x00", b"\x7f", b"\x80",
                b"\xe9", b"%61", b"%e9", b"%00", b"%20", b";", b"\"", b"<", b"%3f", b"%%61", b"%7E", b"%5B", b"%80",
            ];
            for _ in 0..r.between(1, 2) {
                let at = r.below(draft.target.len() + 1);
                let at = if at == 0 && r.chance(900) { draft.target.len() } else { at };
                draft.target.splice(at..at, r.pick(&odd).to_vec());
            }
        }
        2 => {
            let ends = [
                "/", "/.", "/..", "/%2e", ".", "%2e", "?", "??", "?#", "?a\x7f", "/?", "/?a", "%?41", "%4?1", "?a\tb", "/.a", "/a.%E9", "/%2E%2e", "..?a",
                "%2", "/.?a#", "/?\x01", "/?#", "..?\x7f", "%2f?#", "/./%zz", "%zz/.",
            ];
            draft.target.extend(r.pick(&ends).as_bytes());
        }
        3 => {
            if !draft.fields.is_empty() {
                let again = r.pick(&draft.fields).clone();
                insert_anywhere(r, &mut draft.fields, again);
            }
        }
        4 => {
            let line = odd_framing(r);
            insert_anywhere(r, &mut draft.fields, line);
        }
        5 => {
            draft.fields.retain(|line| !is_framing_line(line));
            let line = odd_framing(r);
            insert_anywhere(r, &mut draft.fields, line);
        }
        6 => {
            let is_host = |line: &Vec<u8>| line.len() >= 5 && same(&line[..5], b"host:");
            if r.chance(800) {
                draft.fields.retain(|line| !is_host(line));
            }
            let known = servers.first().map_or(b"h".to_vec(), |server| server.name.clone());
            let values = [
                b"".to_vec(),
                b"nowhere".to_vec(),
                [&known, b":80".as_slice()].concat(),
                [&known, b".".as_slice()].concat(),
                [&known, b" x".as_slice()].concat(),
                known.clone(),
            ];
            for _ in 0..r.below(3) {
                let value = r.pick(&values).clone();
                let line = field(r, b"host", &value);
                insert_anywhere(r, &mut draft.fields, line);
            }
        }
        7 | 8 => {
            let line = odd_field(r);
            insert_anywhere(r, &mut draft.fields, line);
        }
        9 => {
            let methods = ["get", "GEt", "", "G-T", "ABCDEFGHIJKLMNOPQ", "GET\t", "G1", "\u{e9}", " GET", "GET /", "POST", "GET", "HEAD"];
            draft.method = r.pick(&methods).as_bytes().to_vec();
        }
        10 => {
            let versions =
                ["HTTP/1.0", "HTTP/1.1 ", "http/1.1", "HTTP/1.11", "", "HTTP/1.1\t", "HTTP/2", "HTTP/1.", " HTTP/1.1", "HTTP/1.1\r", "HTTP/1.1\n", "HTTP/01.1"];
            draft.version = r.pick(&versions).as_bytes().to_vec();
        }
        11 => {
            let targets = ["http://h/", "*", "", "a/", "?", "//", "/.", "/?", "/??", "/%2e", " /", "/ ", "/a b", "/\ta", "/a\r", "/\n"];
            draft.target = r.pick(&targets).as_bytes().to_vec();
        }
        12 => {
            let data = some_data(r);
            draft.fields.retain(|line| !is_framing_line(line));
            if !BODY_METHODS.contains(&draft.method.as_slice()) {
                draft.method = b"POST".to_vec();
            }
            draft.fields.push(b"Transfer-Encoding: chunked".to_vec());
            draft.body = in_chunks(r, &data, true);
        }
        13 => {
            let at = r.below(draft.fields.len().max(1));
            if at < draft.fields.len() {
                let mut line = draft.fields[at].clone();
                smudge(r, &mut line);
                draft.fields[at] = line;
            }
        }
        _ => smudge(r, &mut draft.target),
    }
}

fn is_framing_line(line: &[u8]) -> bool {
    let name = line.split(|&b| b == b':').next().unwrap();
    same(name, b"content-length") || same(name, b"transfer-encoding")
}

/// One byte or line end is dropped, doubled, changed or put in.
fn smudge(r: &mut Random, text: &mut Vec<u8>) {
    const ODD: &[u8] = b"\r\n\t :/?%.#0aZ-_,;\x00\x7f\x80\xff\"'+gG";
    if text.is_empty() {
        text.push(*r.pick(ODD));
        return;
    }
    // Half of the changes are made at bytes that cut the text.
    let cutting: Vec<usize> = (0..text.len()).filter(|&i| b"\r\n :/?%,".contains(&text[i])).collect();
    let at = if !cutting.is_empty() && r.chance(500) { *r.pick(&cutting) } else { r.below(text.len()) };
    match r.below(10) {
        0 | 1 => drop(text.remove(at)),
        2 | 3 => text.insert(at, text[at]),
        4 => text[at] = *r.pick(ODD),
        5 => text.insert(at, *r.pick(ODD)),
        6 => text[at] ^= 1 << r.below(8),
        7 => text[at] = if text[at].is_ascii_uppercase() { text[at].to_ascii_lowercase() } else { text[at].to_ascii_uppercase() },
        8 => {
            // CR LF for LF, or the other way.
            match text[at..].iter().position(|&b| b == CR || b == LF) {
                Some(behind) if text[at + behind] == CR => drop(text.remove(at + behind)),
                Some(behind) => text.insert(at + behind, CR),
                None => text.push(LF),
            }
        }
        _ => {
            let other = r.below(text.len());
            text.swap(at, other);
        }
    }
}

/// A request at one of the limits.
fn limit_request(r: &mut Random, servers: &[Server]) -> Vec<u8> {
    let mut draft = draft(r, servers);
    while draft.fields.len() > 20 {
        draft = self::draft(r, servers);
    }
    match r.below(13) {
        0 => {
            let count = r.between(63, 66);
            while draft.fields.len() < count {
                let line = some_field(r);
                insert_anywhere(r, &mut draft.fields, line);
            }
            if r.chance(200) {
                draft.fields.push(odd_field(r));
            }
        }
        1 => {
            let name = "n".repeat(r.between(63, 66));
            let line = match r.below(4) {
                0 => name.into_bytes(),
                1 => format!("{name} : a").into_bytes(),
                2 => format!("{name}_:").into_bytes(),
                _ => format!("{name}: a").into_bytes(),
            };
            insert_anywhere(r, &mut draft.fields, line);
            if r.chance(500) {
                draft.fields.push(format!("Connection: {}", "N".repeat(64)).into_bytes());
            }
        }
        2..=4 => {
            // The head as sent: padded with a field that is dropped, or with blanks.
            let wanted = r.between(20_477, 20_484);
            let padding = *r.pick(&["te: ", "x: ", "Keep-Alive:"]);
            let blank = padding == "x: ";
            draft.fields.retain(|line| line.len() < 300);
            let at = r.below(draft.fields.len() + 1);
            draft.fields.insert(at, padding.into());
            let now = draft.text().len() - draft.body.len();
            let missing = wanted.saturating_sub(now);
            draft.fields[at].extend(vec![if blank { TAB } else { b't' }; missing]);
            if blank {
                draft.fields[at].push(b'!');
            }
            if r.chance(200) {
                draft.fields.push(odd_field(r));
            }
            if r.chance(200) {
                let mut text = draft.text();
                let near = r.between(20_470, 20_482).min(text.len());
                text.insert(near, *r.pick(b"\r\nx"));
                return text;
            }
        }
        5 | 6 => {
            // The canonical head: padded with a field that is kept, or in the target.
            let wanted = r.between(16_382, 16_387);
            draft.fields.retain(|line| line.len() < 300);
            draft.fields.push(b"z:".to_vec());
            if let Read::Pass { request, .. } = read_request(&draft.text(), servers) {
                let missing = vec![b'z'; wanted.saturating_sub(request.head.len())];
                match r.below(3) {
                    0 => draft.target.splice(1..1, missing).for_each(drop),
                    _ => draft.fields.last_mut().unwrap().extend(missing),
                }
            }
        }
        7 => {
            let length = r.between(262_142, 262_145);
            draft.method = b"POST".to_vec();
            draft.fields.retain(|line| !is_framing_line(line));
            draft.fields.push(format!("Content-Length: {length}").into_bytes());
            draft.body = vec![b'b'; length];
        }
        8 => {
            // Chunks that hold as much as a body may, or a little more or less.
            let mut left = r.between(262_142, 262_145);
            draft.method = b"PUT".to_vec();
            draft.fields.retain(|line| !is_framing_line(line));
            draft.fields.push(b"Transfer-Encoding: chunked".to_vec());
            draft.body.clear();
            while left > 0 {
                let size = if left <= 3 { 1 } else { r.between(left / 2, left) };
                draft.body.extend([chunk_size(r, size).as_slice(), b"\r\n", &vec![b'c'; size], b"\r\n"].concat());
                left -= size;
            }
            draft.body.extend(b"0\r\n\r\n");
        }
        9 => {
            // A head as long as it may be, and a body as long as it may be.
            draft.method = b"POST".to_vec();
            draft.fields.retain(|line| line.len() < 300 && !is_framing_line(line));
            draft.fields.push(b"te: ".to_vec());
            draft.body = longest_body(r, &mut draft.fields);
            let missing = 20_480 - (draft.text().len() - draft.body.len());
            draft.fields.iter_mut().find(|line| *line == b"te: ").unwrap().extend(vec![b't'; missing]);
        }
        10 => {
            draft.method = "M".repeat(r.between(15, 17)).into_bytes();
            draft.fields.retain(|line| !is_framing_line(line));
            draft.body.clear();
        }
        11 => {
            // No line end in the window.
            let length = r.between(20_478, 20_482);
            let mut text = match r.below(3) {
                0 => b"GET /".to_vec(),
                1 => b"lower".to_vec(),
                _ => b"GET / HTTP/1.1\r\nx: ".to_vec(),
            };
            text.resize(length, b'a');
            text.extend(r.pick(&[b"\r\n".as_slice(), b"\r", b"\n", b"", b" HTTP/1.1\r\n"]).to_vec());
            return text;
        }
        _ => {
            // Many small chunks: there is no limit on the bytes as sent.
            draft.method = b"PATCH".to_vec();
            draft.fields.retain(|line| !is_framing_line(line));
            draft.fields.push(b"Transfer-Encoding: chunked".to_vec());
            draft.body = b"00001\r\nx\r\n".repeat(r.between(2_000, 40_000));
            draft.body.extend(b"00000\r\n\r\n");
        }
    }
    draft.text()
}

/// A body as long as it may be, by length or in chunks, and the field that says so.
fn longest_body(r: &mut Random, fields: &mut Vec<Vec<u8>>) -> Vec<u8> {
    let mut left = 262_143;
    if r.chance(400) {
        fields.push(format!("Content-Length: {left}").into_bytes());
        return vec![b'b'; left];
    }
    fields.push(b"Transfer-Encoding: chunked".to_vec());
    let mut body = Vec::new();
    let largest = *r.pick(&[60, 5_000, 262_143]);
    while left > 0 {
        let size = r.between(1, left.min(largest));
        body.extend([chunk_size(r, size).as_slice(), b"\r\n", &vec![b'c'; size], b"\r\n"].concat());
        left -= size;
    }
    body.extend(b"0\r\n\r\n");
    body
}

/// How often in a thousand messages one is a near miss, or at a limit.
#[derive(Clone, Copy)]
struct Taste {
    misses: usize,
    limits: usize,
}

fn some_request(r: &mut Random, servers: &[Server], taste: Taste) -> Vec<u8> {
    if r.chance(taste.limits) {
        return limit_request(r, servers);
    }
    if !r.chance(taste.misses) {
        return if r.chance(900) { good_request(r, servers) } else { draft(r, servers).text() };
    }
    let mut draft = draft(r, servers);
    if r.chance(700) {
        spoil(r, &mut draft, servers);
        if r.chance(100) {
            spoil(r, &mut draft, servers);
        }
        return draft.text();
    }
    let mut text = draft.text();
    smudge(r, &mut text);
    text
}

/// Settings and one client's bytes.
pub fn some_input(r: &mut Random) -> Input {
    let mut settings = some_settings(r);
    let servers = read_settings(&settings.join(&LF)).unwrap();
    if r.chance(40) {
        settings = spoiled_script(r, settings);
    }
    let taste = Taste { misses: *r.pick(&[0, 200, 500, 900]), limits: *r.pick(&[0, 0, 0, 200]) };
    let mut bytes = Vec::new();
    for _ in 0..r.between(1, 5) {
        bytes.extend(some_request(r, &servers, taste));
    }
    if r.chance(200) {
        bytes.truncate(r.below(bytes.len() + 1));
    }
    Input { settings: Script { lines: settings, last_lf: r.chance(900) }, bytes }
}

// ---- responses

fn some_response(r: &mut Random, method: &[u8]) -> Vec<u8> {
    let mut out = Vec::new();
    while r.chance(80) {
        let status = *r.pick(&["100", "102", "103", "199"]);
        out.extend(format!("HTTP/1.1 {status} Continue\r\n").bytes());
        let mut fields = some_fields(r);
        if r.chance(200) {
            fields.push(odd_framing(r));
        }
        out.extend(head_of(&fields));
    }
    let bodyless = ["101", "204", "304"];
    let status = if r.chance(120) { *r.pick(&bodyless) } else { *r.pick(&["200", "200", "404", "500", "599", "302", "205", "200"]) };
    let phrase = *r.pick(&["OK", "", "Not  Found", " ", "~ !", "OK"]);
    out.extend(format!("HTTP/1.1 {status} {phrase}\r\n").bytes());
    let mut fields = some_fields(r);
    if r.chance(60) {
        let line = field(r, b"host", b"h");
        insert_anywhere(r, &mut fields, line);
    }
    if method == b"HEAD" || bodyless.contains(&status) {
        for _ in 0..r.below(3) {
            let line = odd_framing(r);
            insert_anywhere(r, &mut fields, line);
        }
        out.extend(head_of(&fields));
        return out;
    }
    let data = some_data(r);
    if r.chance(500) {
        let length = some_length(r, data.len());
        let line = field(r, b"content-length", &length);
        insert_anywhere(r, &mut fields, line);
        out.extend(head_of(&fields));
        out.extend(data);
    } else {
        let value = odd_case(r, b"chunked");
        let line = field(r, b"transfer-encoding", &value);
        insert_anywhere(r, &mut fields, line);
        out.extend(head_of(&fields));
        out.extend(in_chunks(r, &data, false));
    }
    out
}

fn head_of(fields: &[Vec<u8>]) -> Vec<u8> {
    let mut out = Vec::new();
    for field in fields {
        out.extend(field);
        out.extend(b"\r\n");
    }
    out.extend(b"\r\n");
    out
}

/// A response that is not right for what was asked, or nearly not.
fn odd_response(r: &mut Random, method: &[u8]) -> Vec<u8> {
    let good = some_response(r, method);
    match r.below(12) {
        0 => [good.as_slice(), b"x"].concat(),
        1 => [good.clone(), good].concat(),
        2 => [b"\r\n", good.as_slice()].concat(),
        3 => some_response(r, b"HEAD"),
        4 => some_response(r, b"GET"),
        5 => {
            let firsts = [
                "HTTP/1.0 200 OK",
                "HTTP/1.1 200",
                "HTTP/1.1 099 ",
                "HTTP/1.1 600 ",
                "HTTP/1.1 20 OK",
                "http/1.1 200 OK",
                "HTTP/1.1  200 OK",
                "HTTP/1.1 200 \t",
                "HTTP/1.1 200 \u{e9}",
                "HTTP/1.1 2000 OK",
                "HTTP/1.1 599 ",
            ];
            let first = *r.pick(&firsts);
            [first.as_bytes(), b"\r\ncontent-length: 0\r\n\r\n"].concat()
        }
        6 | 7 => {
            let mut fields = some_fields(r);
            for _ in 0..r.below(3) {
                fields.push(odd_framing(r));
            }
            if r.chance(300) {
                fields.push(odd_field(r));
            }
            let data = some_data(r);
            [b"HTTP/1.1 200 OK\r\n".to_vec(), head_of(&fields), data].concat()
        }
        8 => {
            let data = some_data(r);
            [b"HTTP/1.1 200 OK\r\nTransfer-Encoding: chunked\r\n\r\n".to_vec(), in_chunks(r, &data, true)].concat()
        }
        9 => limit_response(r),
        _ => {
            let mut text = good;
            smudge(r, &mut text);
            text
        }
    }
}

fn limit_response(r: &mut Random) -> Vec<u8> {
    let first = b"HTTP/1.1 200 OK\r\n".to_vec();
    match r.below(7) {
        0 => {
            let mut fields: Vec<Vec<u8>> = (1..r.between(63, 66)).map(|_| field(r, b"x", b"1")).collect();
            insert_anywhere(r, &mut fields, b"content-length: 0".to_vec());
            [first, head_of(&fields)].concat()
        }
        1 => {
            let name = "n".repeat(r.between(63, 65));
            [first, head_of(&[format!("{name}: 1").into_bytes(), b"content-length: 0".to_vec()])].concat()
        }
        2 => {
            let wanted = r.between(20_477, 20_484);
            let mut fields = vec![b"x: ".to_vec(), b"content-length: 2".to_vec()];
            let now = first.len() + head_of(&fields).len();
            fields[0].extend(vec![b'x'; wanted - now]);
            [first, head_of(&fields), b"ab".to_vec()].concat()
        }
        3 => {
            let length = r.between(262_142, 262_145);
            [first, head_of(&[format!("content-length: {length}").into_bytes()]), vec![b'r'; length]].concat()
        }
        4 => {
            // A copy may be longer than what came: an empty value gets a space.
            let mut fields = vec![b"x:".to_vec(); r.between(1, 62)];
            let body = longest_body(r, &mut fields);
            fields.push(b"y:".to_vec());
            let missing = 20_480 - first.len() - head_of(&fields).len();
            fields.last_mut().unwrap().extend(vec![b'y'; missing]);
            [first, head_of(&fields), body].concat()
        }
        5 => {
            let many = b"00001\r\nx\r\n".repeat(r.between(2_000, 40_000));
            [first, head_of(&[b"transfer-encoding: chunked".to_vec()]), many, b"0\r\n\r\n".to_vec()].concat()
        }
        _ => {
            let mut left = r.between(262_142, 262_145);
            let mut out = [first, head_of(&[b"transfer-encoding: chunked".to_vec()])].concat();
            while left > 0 {
                let size = if left <= 3 { 1 } else { r.between(left / 2, left) };
                out.extend([chunk_size(r, size).as_slice(), b"\r\n", &vec![b'c'; size], b"\r\n"].concat());
                left -= size;
            }
            out.extend(b"0\r\n\r\n");
            out
        }
    }
}

// ---- scripts

/// An event as a line, in one of the two ways of writing bytes.
pub fn event_line(r: &mut Random, party: Party, number: usize, bytes: &[u8]) -> Vec<u8> {
    let party = if party == Party::Client { "client" } else { "server" };
    let mut line = format!("from {party} {number} ").into_bytes();
    if !bytes.is_empty() && r.chance(300) {
        let upper = r.chance(300);
        line.extend(if upper { hex(bytes).to_uppercase() } else { hex(bytes) }.bytes());
        return line;
    }
    line.push(b'"');
    for &b in bytes {
        match b {
            b'"' => line.extend(b"\\\""),
            b'\\' => line.extend(b"\\\\"),
            CR => line.extend(b"\\r"),
            LF => line.extend(b"\\n"),
            TAB => line.extend(b"\\t"),
            32..=126 if !r.chance(5) => line.push(b),
            _ if r.chance(500) => line.extend(format!("\\x{b:02x}").bytes()),
            _ => line.extend(format!("\\x{b:02X}").bytes()),
        }
    }
    line.push(b'"');
    line
}

#[derive(Clone, Copy)]
enum Cutting {
    Whole,
    Anywhere,
    Small,
    Single,
    Lines,
    Mixed,
}

/// How long the next piece is.
fn piece_length(r: &mut Random, cutting: Cutting, bytes: &[u8]) -> usize {
    // What is long is not cut into too many pieces.
    let long = bytes.len() > 1_500;
    match cutting {
        Cutting::Whole => bytes.len(),
        Cutting::Single if !long => 1,
        Cutting::Small if !long => r.between(1, bytes.len().min(5)),
        Cutting::Lines if !long => bytes.iter().position(|&b| b == CR || b == LF).map_or(bytes.len(), |end| end + 1),
        Cutting::Mixed if !long => {
            let one = *r.pick(&[Cutting::Whole, Cutting::Anywhere, Cutting::Anywhere, Cutting::Small, Cutting::Single, Cutting::Lines]);
            piece_length(r, one, bytes)
        }
        _ => r.between(1, bytes.len()),
    }
}

struct Making {
    gate: Gate,
    lines: Vec<Vec<u8>>,
    cutting: Cutting,
    /// Of requests.
    taste: Taste,
    /// Of responses.
    server_taste: Taste,
    /// What each client and server will still send.
    clients: Vec<Vec<u8>>,
    servers: Vec<Vec<u8>>,
}

impl Making {
    /// Sends from what a client or server has to send: all of it in pieces, or one piece.
    fn send(&mut self, r: &mut Random, party: Party, index: usize, all: bool) {
        loop {
            let waiting = if party == Party::Client { &mut self.clients[index] } else { &mut self.servers[index] };
            let length = if waiting.is_empty() || r.chance(3) { 0 } else { piece_length(r, self.cutting, waiting) };
            let piece: Vec<u8> = waiting.drain(..length).collect();
            let left = waiting.len();
            self.lines.push(event_line(r, party, index + 1, &piece));
            if party == Party::Client {
                self.gate.from_client(index, &piece);
            } else {
                self.gate.from_server(index, &piece);
            }
            if r.chance(3) {
                self.lines.push(some_comment(r));
            }
            if left == 0 || !all {
                return;
            }
        }
    }

    fn client_acts(&mut self, r: &mut Random, client: usize) {
        if self.gate.clients[client].state == ClientState::Ended && !r.chance(50) {
            self.clients[client].clear();
        }
        if self.clients[client].is_empty() {
            let count = if r.chance(150) { r.between(2, 4) } else { 1 };
            for _ in 0..count {
                let request = some_request(r, &self.gate.servers, self.taste);
                self.clients[client].extend(request);
            }
        }
        let all = r.chance(800);
        self.send(r, Party::Client, client, all);
    }

    fn server_acts(&mut self, r: &mut Random, server: usize) {
        if !self.gate.connections[server].up {
            self.servers[server].clear();
        }
        if self.servers[server].is_empty() {
            let owners = &self.gate.connections[server].owners;
            let count = if r.chance(700) { 1 } else { r.between(1, owners.len().max(1)) };
            let methods: Vec<Vec<u8>> = owners.iter().take(count).map(|owner| owner.method.clone()).collect();
            for method in methods {
                let response = if r.chance(self.server_taste.misses) {
                    odd_response(r, &method)
                } else if r.chance(self.server_taste.limits) {
                    limit_response(r)
                } else {
                    some_response(r, &method)
                };
                self.servers[server].extend(response);
            }
            if self.servers[server].is_empty() || r.chance(self.server_taste.misses / 10) {
                self.servers[server].extend(r.pick(&[b"x".as_slice(), b"\r\n", b"HTTP/1.1 200 OK\r\ncontent-length: 0\r\n\r\n", b"\x00"]).to_vec());
            }
        }
        let all = r.chance(800);
        self.send(r, Party::Server, server, all);
    }

    fn asked(&self) -> Vec<usize> {
        (0..self.gate.servers.len()).filter(|&s| !self.gate.connections[s].owners.is_empty()).collect()
    }
}

/// A script whose form is good.
pub fn some_good_script(r: &mut Random) -> Script {
    let lines = some_settings(r);
    let servers = read_settings(&lines.join(&LF)).unwrap();
    let cutting = *r.pick(&[Cutting::Whole, Cutting::Anywhere, Cutting::Small, Cutting::Single, Cutting::Lines, Cutting::Mixed, Cutting::Mixed]);
    let count = servers.len();
    let mut making = Making {
        gate: Gate::new(servers),
        lines,
        cutting,
        taste: Taste { misses: *r.pick(&[0, 5, 20, 20, 60, 200]), limits: *r.pick(&[0, 0, 0, 0, 0, 40]) },
        server_taste: Taste { misses: *r.pick(&[0, 0, 10, 20, 40, 100]), limits: *r.pick(&[0, 0, 0, 0, 0, 30]) },
        clients: vec![Vec::new(); CLIENTS],
        servers: vec![Vec::new(); count],
    };
    let in_play = if r.chance(150) { CLIENTS } else { r.between(1, 6) };
    let first = r.below(CLIENTS);
    let clients: Vec<usize> = (0..in_play).map(|i| (first + i * 5) % CLIENTS).collect();
    for _ in 0..r.between(5, 90) {
        if making.lines.len() > 4_000 {
            break;
        }
        let asked = making.asked();
        let ready: Vec<usize> = clients.iter().copied().filter(|&c| making.gate.clients[c].state == ClientState::Read).collect();
        if count > 0 && making.gate.connections.iter().all(|connection| !connection.up) && r.chance(150) {
            break;
        }
        if count > 0 && r.chance(making.server_taste.misses / 20) {
            let server = r.below(count);
            making.server_acts(r, server);
        } else if !asked.is_empty() && (ready.is_empty() || r.chance(450)) {
            let server = *r.pick(&asked);
            making.server_acts(r, server);
        } else if !ready.is_empty() && !r.chance(150) {
            let client = *r.pick(&ready);
            making.client_acts(r, client);
        } else if asked.is_empty() && ready.is_empty() && r.chance(700) {
            break;
        } else {
            let client = *r.pick(&clients);
            making.client_acts(r, client);
        }
    }
    // In the end most that was asked is responded to.
    for _ in 0..30 {
        let asked = making.asked();
        if asked.is_empty() || r.chance(50) {
            break;
        }
        let server = *r.pick(&asked);
        making.server_acts(r, server);
    }
    Script { lines: making.lines, last_lf: r.chance(900) }
}

/// A script: most are long and good, some have a bad line, and some are short and have one.
pub fn some_script(r: &mut Random) -> Script {
    if r.chance(200) {
        return short_script(r);
    }
    let mut script = some_good_script(r);
    if r.chance(80) {
        if r.chance(500) {
            let keep = r.below(script.lines.len() + 1);
            script.lines.truncate(keep);
        }
        script.lines = spoiled_script(r, script.lines);
    }
    script
}

/// A few settings and events, of which one or two are spoiled.
fn short_script(r: &mut Random) -> Script {
    let mut lines = some_settings(r);
    lines.truncate(r.between(0, 12));
    for _ in 0..r.below(5) {
        let servers = lines.iter().filter(|line| line.starts_with(b"server ")).count();
        let (party, number) = if servers == 0 || r.chance(700) { (Party::Client, r.between(1, 16)) } else { (Party::Server, r.between(1, servers)) };
        let bytes = some_data(r);
        lines.push(event_line(r, party, number, &bytes));
    }
    for _ in 0..r.between(1, 2) {
        lines = spoiled_script(r, lines);
    }
    Script { lines, last_lf: r.chance(800) }
}

fn spoiled_script(r: &mut Random, mut lines: Vec<Vec<u8>>) -> Vec<Vec<u8>> {
    let odd: [&[u8]; 74] = [
        b"from client 1 \"\\T\"",
        b"from client 1 \"\\N\"",
        b"from client 1 \"\\R\"",
        b"from client 1 \"\\0\"",
        b"from client 1 \"\x7f\"",
        b"from client 1 \"\t\"",
        b"from client 1 \"\r\"",
        b"from client 1 \"\x00\"",
        b"from client 1 \"a\"b\"",
        b"from client 1 \"\"\"",
        b"from client 1 \"\\\"",
        b"from client 1 \"\\x0\"",
        b"from client 1 \"\\X00\"",
        b"from client 1 \"\\x 0\"",
        b"from client 1 'a'",
        b"from client 1 0x00",
        b"from client 1 00 \"\"",
        b"from client  1 00",
        b"from client 1\t00",
        b"from client +1 00",
        b"allow GET /a b",
        b"allow GET,GET,POST /..",
        b"deny GET /a//b",
        b"allow",
        b"from",
        b"from client",
        b"\r",
        b"\x00",
        b"server \x00",
        b"\xff",
        b" ",
        b"server",
        b"server ",
        b"server  h",
        b" server h",
        b"server h ",
        b"server h h",
        b"Server q",
        b"server q_",
        b"server q\t",
        b"server q\r",
        b"allow GET /",
        b"deny - /",
        b"allow GET",
        b"allow  /",
        b"allow GET, /",
        b"allow get /",
        b"allow GET /A",
        b"allow GET a",
        b"allow GET /a/",
        b"allow GET //",
        b"allow GET / ",
        b"allow GET /%61",
        b"allow GET,- /",
        b"from client 1",
        b"from client 0 00",
        b"from client 17 00",
        b"from client 01 00",
        b"from client 16 \"\"",
        b"from server 9 00",
        b"from server 1 \"\"",
        b"from client 1 0",
        b"from client 1 ",
        b"from client 1 0g",
        b"from client 1 00 ",
        b"from client 1 \"",
        b"from client 1 \"\\x4\"",
        b"from client 1 \"\\q\"",
        b"from client 1 \"\" ",
        b"from client 1 \"\xc3\xa9\"",
        b"from client 99999999999999999999 00",
        b"from Client 1 00",
        b"from gate 1 00",
        b"\xef\xbb\xbfserver z",
    ];
    match r.below(18) {
        0..=2 | 13..=17 => {
            let mut line = r.pick(&odd).to_vec();
            if r.chance(100) {
                // An escape, most often an unknown one.
                line = [b"from client 1 \"\\".as_slice(), &[r.between(32, 126) as u8], b"\""].concat();
            }
            insert_anywhere(r, &mut lines, line);
        }
        12 => {
            // A very long line.
            let mut line =
                r.pick(&[b"#".as_slice(), b"server ", b"deny GET /", b"deny ", b"from client 1 ", b"from client 1 \"", b"from client ", b"x"]).to_vec();
            line.resize(r.between(1_000, 300_000), *r.pick(b"a0A "));
            insert_anywhere(r, &mut lines, line);
        }
        3 | 4 => {
            if !lines.is_empty() {
                let at = r.below(lines.len());
                let mut line = lines[at].clone();
                smudge(r, &mut line);
                if !line.contains(&LF) {
                    lines[at] = line;
                }
            }
        }
        5 => {
            let servers: Vec<Vec<u8>> = lines.iter().filter(|line| line.starts_with(b"server")).cloned().collect();
            if !servers.is_empty() {
                let line = r.pick(&servers).clone();
                let again = [b"server ", odd_case(r, &line[7.min(line.len())..]).as_slice()].concat();
                insert_anywhere(r, &mut lines, again);
            }
        }
        6 => {
            let names = (0..9).map(|i| format!("server s{i}").into_bytes());
            lines.splice(0..0, names);
        }
        7 => {
            let count = r.between(62, 65);
            let mut more = vec![b"server many-rules".to_vec()];
            more.extend((0..count).map(|_| some_rule(r)));
            lines.splice(0..0, more);
        }
        8 => {
            let parts = "/a".repeat(r.between(15, 18));
            lines.insert(0, b"server many-parts".to_vec());
            lines.insert(1, format!("deny GET {parts}").into_bytes());
        }
        9 => {
            let methods = vec!["GET"; r.between(7, 9)].join(",");
            lines.insert(0, b"server many-methods".to_vec());
            lines.insert(1, format!("deny {methods},{} /", "M".repeat(r.between(15, 17))).into_bytes());
        }
        10 => lines.insert(0, [b"server ", "n".repeat(r.between(252, 255)).as_bytes()].concat()),
        _ => {
            // An event written again in another way, with one byte of the writing changed.
            if !lines.is_empty() {
                let at = r.below(lines.len());
                if let Ok(Line::Event { party, number, bytes }) = read_line(&lines[at]) {
                    let mut line = event_line(r, party, number, &bytes[..bytes.len().min(20)]);
                    smudge(r, &mut line);
                    if !line.contains(&LF) {
                        lines[at] = line;
                    }
                }
            }
        }
    }
    lines
}

/// The same bytes of clients, cut in another way between the same other events. Only what one client sends in a row is cut anew.
pub fn cut_again(r: &mut Random, script: &Script) -> Script {
    let cutting = *r.pick(&[Cutting::Whole, Cutting::Anywhere, Cutting::Single, Cutting::Single, Cutting::Mixed]);
    let mut lines = Vec::new();
    let mut row: Option<(usize, Vec<u8>)> = None;
    let flush = |r: &mut Random, row: &mut Option<(usize, Vec<u8>)>, lines: &mut Vec<Vec<u8>>| {
        if let Some((number, bytes)) = row.take() {
            let mut rest = bytes.as_slice();
            while !rest.is_empty() {
                let (piece, behind) = rest.split_at(piece_length(r, cutting, rest));
                lines.push(event_line(r, Party::Client, number, piece));
                rest = behind;
            }
        }
    };
    for line in lines_of(&script.text()) {
        match read_line(line) {
            Ok(Line::Event { party: Party::Client, number, bytes }) => {
                if row.as_ref().is_some_and(|(other, _)| *other != number) {
                    flush(r, &mut row, &mut lines);
                }
                row.get_or_insert((number, Vec::new())).1.extend(bytes);
            }
            Ok(Line::Nothing) => {}
            _ => {
                flush(r, &mut row, &mut lines);
                lines.push(line.to_vec());
            }
        }
    }
    flush(r, &mut row, &mut lines);
    Script { lines, last_lf: true }
}
