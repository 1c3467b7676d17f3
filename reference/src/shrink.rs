//! Makes an input that fails shorter, as long as it goes on to fail.

use crate::generate::{Input, Script};
use crate::script::{read_line, Line, Party};

/// Drops items, first many at once and then one by one. At most `tries` lists are tried.
fn shrink_list<T: Clone>(items: &mut Vec<T>, tries: &mut usize, fails: &mut dyn FnMut(&[T]) -> bool) {
    let mut size = items.len().div_ceil(2);
    while size > 0 {
        let mut at = 0;
        while at < items.len() {
            if *tries == 0 {
                return;
            }
            *tries -= 1;
            let end = (at + size).min(items.len());
            let fewer = [&items[..at], &items[end..]].concat();
            if fails(&fewer) {
                *items = fewer;
            } else {
                at = end;
            }
        }
        size /= 2;
    }
}

/// An event with its bytes as plainly as they can be written.
fn plain_event(party: Party, number: usize, bytes: &[u8]) -> Vec<u8> {
    let party = if party == Party::Client { "client" } else { "server" };
    let mut line = format!("from {party} {number} \"").into_bytes();
    for &b in bytes {
        match b {
            b'"' | b'\\' => line.extend([b'\\', b]),
            13 => line.extend(b"\\r"),
            10 => line.extend(b"\\n"),
            32..=126 => line.push(b),
            _ => line.extend(format!("\\x{b:02x}").bytes()),
        }
    }
    line.push(b'"');
    line
}

fn joined(one: &[u8], other: &[u8]) -> Option<Vec<u8>> {
    let (Ok(Line::Event { party, number, bytes }), Ok(Line::Event { party: other_party, number: other_number, bytes: more })) =
        (read_line(one), read_line(other))
    else {
        return None;
    };
    (party == other_party && number == other_number).then(|| plain_event(party, number, &[bytes, more].concat()))
}

pub fn shrink_script(script: &Script, tries: usize, fails: &mut dyn FnMut(&Script) -> bool) -> Script {
    let mut tries = tries;
    let last_lf = script.last_lf;
    let mut lines = script.lines.clone();
    loop {
        let before = lines.clone();
        shrink_list(&mut lines, &mut tries, &mut |lines| fails(&Script { lines: lines.to_vec(), last_lf }));
        // Two events of the same party in a row become one.
        let mut at = 0;
        while at + 1 < lines.len() && tries > 0 {
            let mut fewer = lines.clone();
            if let Some(line) = joined(&lines[at], &lines[at + 1]) {
                tries -= 1;
                fewer.splice(at..at + 2, [line]);
                if fails(&Script { lines: fewer.clone(), last_lf }) {
                    lines = fewer;
                    continue;
                }
            }
            at += 1;
        }
        // Fewer bytes in each event, and in each line that is none.
        for at in 0..lines.len() {
            let mut with = |line: Vec<u8>| {
                let mut changed = lines.clone();
                changed[at] = line;
                fails(&Script { lines: changed, last_lf })
            };
            lines[at] = match read_line(&lines[at]) {
                Ok(Line::Event { party, number, mut bytes }) => {
                    if !with(plain_event(party, number, &bytes)) {
                        continue;
                    }
                    shrink_list(&mut bytes, &mut tries, &mut |bytes| with(plain_event(party, number, bytes)));
                    plain_event(party, number, &bytes)
                }
                _ => {
                    let mut line = lines[at].clone();
                    shrink_list(&mut line, &mut tries, &mut |line| with(line.to_vec()));
                    line
                }
            };
        }
        if lines == before || tries == 0 {
            return Script { lines, last_lf };
        }
    }
}

pub fn shrink_input(input: &Input, tries: usize, fails: &mut dyn FnMut(&Input) -> bool) -> Input {
    let mut tries = tries;
    let last_lf = input.settings.last_lf;
    let input_of = |lines: &[Vec<u8>], bytes: &[u8]| Input { settings: Script { lines: lines.to_vec(), last_lf }, bytes: bytes.to_vec() };
    let mut lines = input.settings.lines.clone();
    let mut bytes = input.bytes.clone();
    loop {
        let before = input_of(&lines, &bytes);
        shrink_list(&mut bytes, &mut tries, &mut |bytes| fails(&input_of(&lines, bytes)));
        shrink_list(&mut lines, &mut tries, &mut |lines| fails(&input_of(lines, &bytes)));
        for at in 0..lines.len() {
            let mut line = lines[at].clone();
            shrink_list(&mut line, &mut tries, &mut |line| {
                let mut changed = lines.clone();
                changed[at] = line.to_vec();
                fails(&input_of(&changed, &bytes))
            });
            lines[at] = line;
        }
        let now = input_of(&lines, &bytes);
        if now == before || tries == 0 {
            return now;
        }
    }
}
