//! What `explain` prints for one client's bytes.

use crate::bytes::hex;
use crate::request::{read_request, Read};
use crate::rules::Server;

pub fn explain(mut bytes: &[u8], servers: &[Server]) -> Vec<u8> {
    let mut out = Vec::new();
    while !bytes.is_empty() {
        match read_request(bytes, servers) {
            Read::More => {
                out.extend(b"more\n");
                return out;
            }
            Read::End { number, place } => {
                out.extend(format!("fault {number} at {place}\n").bytes());
                return out;
            }
            Read::Refused { number, place, taken } => {
                out.extend(format!("fault {number} at {place}\n").bytes());
                bytes = &bytes[taken..];
            }
            Read::Pass { request, taken } => {
                out.extend(format!("pass {}\n", request.server + 1).bytes());
                let lines = &request.head[..request.head.len() - 4];
                for line in lines.split(|&b| b == b'\n') {
                    out.extend(b"  ");
                    out.extend(line.strip_suffix(b"\r").unwrap_or(line));
                    out.push(b'\n');
                }
                match request.body.as_deref() {
                    None => {}
                    Some([]) => out.extend(b"  body 0\n"),
                    Some(body) => out.extend(format!("  body {} {}\n", body.len(), hex(body)).bytes()),
                }
                bytes = &bytes[taken..];
            }
        }
    }
    out
}
