//! Settings and scripts, and what `gate` prints for them (docs/SCRIPT.md).

use crate::bytes::*;
use crate::gate::{Gate, Happening, CLIENTS};
use crate::rules::{Rule, Server};

const MAX_SERVERS: usize = 8;
const MAX_SERVER_NAME: usize = 253;
const MAX_RULES: usize = 64;
const MAX_PARTS: usize = 16;
const MAX_METHODS: usize = 8;
const MAX_METHOD: usize = 16;

#[derive(Clone, Copy, Debug, PartialEq, Eq)]
pub enum Party {
    Client,
    Server,
}

/// A line of a script. The number is as written, from 1.
#[derive(Clone, Debug, PartialEq, Eq)]
pub enum Line {
    Nothing,
    Server(Vec<u8>),
    Rule(Rule),
    Event { party: Party, number: usize, bytes: Vec<u8> },
}

/// Reads one line, without its LF.
pub fn read_line(line: &[u8]) -> Result<Line, String> {
    if line.is_empty() || line[0] == b'#' {
        return Ok(Line::Nothing);
    }
    let (keyword, rest) = cut_word(line);
    match keyword {
        b"server" => Ok(Line::Server(read_server_name(rest)?)),
        b"allow" => Ok(Line::Rule(read_rule(true, rest)?)),
        b"deny" => Ok(Line::Rule(read_rule(false, rest)?)),
        b"from" => read_event(rest),
        _ => Err("unknown statement".to_string()),
    }
}

/// The word up to the first space, and what follows that space, if there is one.
fn cut_word(text: &[u8]) -> (&[u8], Option<&[u8]>) {
    match text.iter().position(|&b| b == SPACE) {
        Some(space) => (&text[..space], Some(&text[space + 1..])),
        None => (text, None),
    }
}

fn read_server_name(rest: Option<&[u8]>) -> Result<Vec<u8>, String> {
    let name = rest.ok_or("a server has a name")?;
    let good = (1..=MAX_SERVER_NAME).contains(&name.len()) && name.iter().all(|&b| is_name_byte(b) || b == b'.');
    if !good {
        return Err("a server's name has 1 to 253 letters, digits, hyphens and dots".to_string());
    }
    Ok(name.to_vec())
}

fn read_rule(yes: bool, rest: Option<&[u8]>) -> Result<Rule, String> {
    let (methods, parts) = cut_word(rest.ok_or("a rule has methods and parts")?);
    let methods = read_methods(methods)?;
    let parts = read_parts(parts.ok_or("a rule has parts")?)?;
    Ok(Rule { yes, methods, parts })
}

fn read_methods(word: &[u8]) -> Result<Vec<Vec<u8>>, String> {
    if word == b"-" {
        return Ok(Vec::new());
    }
    let methods: Vec<Vec<u8>> = word.split(|&b| b == b',').map(|method| method.to_vec()).collect();
    let good = |method: &Vec<u8>| (1..=MAX_METHOD).contains(&method.len()) && method.iter().all(|&b| is_capital(b));
    if methods.len() > MAX_METHODS || !methods.iter().all(good) {
        return Err("methods are - or 1 to 8 methods of 1 to 16 letters A to Z".to_string());
    }
    Ok(methods)
}

fn read_parts(word: &[u8]) -> Result<Vec<Vec<u8>>, String> {
    if word == b"/" {
        return Ok(Vec::new());
    }
    let problem = || "parts are / or 1 to 16 parts of plain bytes without capitals, each after a /".to_string();
    if word.first() != Some(&b'/') {
        return Err(problem());
    }
    let parts: Vec<Vec<u8>> = word[1..].split(|&b| b == b'/').map(|part| part.to_vec()).collect();
    let good = |part: &Vec<u8>| !part.is_empty() && part.iter().all(|&b| is_plain(b) && !is_capital(b));
    if parts.len() > MAX_PARTS || !parts.iter().all(good) {
        return Err(problem());
    }
    Ok(parts)
}

fn read_event(rest: Option<&[u8]>) -> Result<Line, String> {
    let (party, rest) = cut_word(rest.ok_or("an event has a party")?);
    let party = match party {
        b"client" => Party::Client,
        b"server" => Party::Server,
        _ => return Err("an event is from a client or a server".to_string()),
    };
    let (number, rest) = cut_word(rest.ok_or("an event has a number")?);
    let number = read_number(number)?;
    let bytes = rest.ok_or("an event has bytes")?;
    let bytes = if bytes.first() == Some(&b'"') { read_quoted(&bytes[1..])? } else { read_hexadecimal(bytes)? };
    Ok(Line::Event { party, number, bytes })
}

/// A number without a leading zero; those of more than three digits are out of every range.
fn read_number(word: &[u8]) -> Result<usize, String> {
    if word.is_empty() || word.len() > 3 || word[0] == b'0' || !word.iter().all(|&b| is_digit(b)) {
        return Err("numbers are decimal, from 1, without a leading zero".to_string());
    }
    Ok(word.iter().fold(0, |n, &b| n * 10 + usize::from(b - b'0')))
}

fn read_hexadecimal(word: &[u8]) -> Result<Vec<u8>, String> {
    let problem = || "hexadecimal text has an even number of digits, at least two".to_string();
    if word.is_empty() || word.len() % 2 != 0 {
        return Err(problem());
    }
    word.chunks(2).map(|pair| read_pair(pair).ok_or_else(problem)).collect()
}

fn read_pair(pair: &[u8]) -> Option<u8> {
    Some(hex_digit(*pair.first()?)? * 16 + hex_digit(*pair.get(1)?)?)
}

/// Quoted text behind its first quote.
fn read_quoted(text: &[u8]) -> Result<Vec<u8>, String> {
    let mut out = Vec::new();
    let mut at = 0;
    loop {
        match text.get(at) {
            None => return Err("quoted text ends with a quote".to_string()),
            Some(b'"') if at + 1 == text.len() => return Ok(out),
            Some(b'"') => return Err("nothing may follow the closing quote".to_string()),
            Some(b'\\') => {
                let (byte, length) = match text.get(at + 1) {
                    Some(b'r') => (CR, 2),
                    Some(b'n') => (LF, 2),
                    Some(b't') => (TAB, 2),
                    Some(b'\\') => (b'\\', 2),
                    Some(b'"') => (b'"', 2),
                    Some(b'x') => (read_pair(&text[at + 2..]).ok_or("an escape \\x has two hexadecimal digits")?, 4),
                    _ => return Err("unknown escape".to_string()),
                };
                out.push(byte);
                at += length;
            }
            Some(&byte) if (32..=126).contains(&byte) => {
                out.push(byte);
                at += 1;
            }
            Some(_) => return Err("quoted text has bytes 32 to 126".to_string()),
        }
    }
}

/// Takes one setting into the servers declared so far.
pub fn add_setting(servers: &mut Vec<Server>, setting: Line) -> Result<(), String> {
    match setting {
        Line::Server(name) => {
            if servers.len() == MAX_SERVERS {
                return Err("there are at most 8 servers".to_string());
            }
            if servers.iter().any(|server| same(&server.name, &name)) {
                return Err("no two servers have the same name".to_string());
            }
            servers.push(Server { name, rules: Vec::new() });
        }
        Line::Rule(rule) => {
            let server = servers.last_mut().ok_or("a rule comes after its server")?;
            if server.rules.len() == MAX_RULES {
                return Err("a server has at most 64 rules".to_string());
            }
            server.rules.push(rule);
        }
        Line::Nothing | Line::Event { .. } => {}
    }
    Ok(())
}

/// The lines of a text. LF ends a line; the last may lack it.
pub fn lines_of(text: &[u8]) -> Vec<&[u8]> {
    let mut lines: Vec<&[u8]> = text.split(|&b| b == LF).collect();
    if lines.last() == Some(&b"".as_slice()) {
        lines.pop();
    }
    lines
}

/// Settings alone. An error is the number of its line and what is wrong.
pub fn read_settings(text: &[u8]) -> Result<Vec<Server>, (usize, String)> {
    let mut servers = Vec::new();
    for (i, line) in lines_of(text).into_iter().enumerate() {
        let taken = match read_line(line) {
            Ok(Line::Event { .. }) => Err("settings have no events".to_string()),
            Ok(setting) => add_setting(&mut servers, setting),
            Err(problem) => Err(problem),
        };
        taken.map_err(|problem| (i + 1, problem))?;
    }
    Ok(servers)
}

/// Plays a script line by line.
#[derive(Default)]
pub struct Player {
    servers: Vec<Server>,
    /// Made at the first event.
    gate: Option<Gate>,
}

impl Player {
    /// Plays one line, and says what it brings about or what is wrong with it.
    pub fn play(&mut self, line: &[u8]) -> Result<Vec<Happening>, String> {
        match read_line(line)? {
            Line::Nothing => Ok(Vec::new()),
            Line::Event { party, number, bytes } => {
                let known = if party == Party::Client { CLIENTS } else { self.servers.len() };
                if number > known {
                    return Err("there is no client or server of this number".to_string());
                }
                let gate = self.gate.get_or_insert_with(|| Gate::new(self.servers.clone()));
                Ok(match party {
                    Party::Client => gate.from_client(number - 1, &bytes),
                    Party::Server => gate.from_server(number - 1, &bytes),
                })
            }
            setting => {
                if self.gate.is_some() {
                    return Err("settings come before events".to_string());
                }
                add_setting(&mut self.servers, setting)?;
                Ok(Vec::new())
            }
        }
    }
}

/// A happening as a line of output.
pub fn say(happening: &Happening) -> String {
    match happening {
        Happening::ToServer(server, bytes) => format!("to server {} {}", server + 1, hex(bytes)),
        Happening::ToClient(client, bytes) => format!("to client {} {}", client + 1, hex(bytes)),
        Happening::EndClient(client) => format!("end client {}", client + 1),
        Happening::DownServer(server) => format!("down server {}", server + 1),
    }
}

/// All that `gate` prints for a script, and the number of the first bad line with what is wrong with it.
pub fn play_all(text: &[u8]) -> (String, Option<(usize, String)>) {
    let mut player = Player::default();
    let mut out = String::new();
    for (i, line) in lines_of(text).into_iter().enumerate() {
        match player.play(line) {
            Ok(happenings) => {
                for happening in happenings {
                    out.push_str(&say(&happening));
                    out.push('\n');
                }
            }
            Err(problem) => return (out, Some((i + 1, problem))),
        }
    }
    (out, None)
}
