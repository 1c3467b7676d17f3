//! The trickiest rules of responses, connections and scripts. All values are worked out by hand from docs/RULES.md and docs/SCRIPT.md.

use reference::gate::Happening;
use reference::response::{read_response, refusal};
use reference::script::{play_all, Player};
use reference::Stop;

const SETTINGS: &str = "server h\nallow GET,HEAD,POST /\nserver i\nallow GET /\n";
const OK: &str = "HTTP/1.1 200 OK\\r\\ncontent-length: 0\\r\\n\\r\\n";

fn get(client: usize, path: &str, host: &str) -> String {
    format!("from client {client} \"GET {path} HTTP/1.1\\r\\nHost: {host}\\r\\n\\r\\n\"\n")
}

/// What happens in a script with two servers, in few words: of a request its path, of a refusal its number, of a response its status.
fn played(events: &str) -> String {
    let mut player = Player::default();
    let mut out = Vec::new();
    for line in [SETTINGS, events].concat().lines() {
        for happening in player.play(line.as_bytes()).unwrap() {
            out.push(match happening {
                Happening::ToServer(server, bytes) => {
                    let text = String::from_utf8(bytes).unwrap();
                    format!("{}<{}", server + 1, text.split(' ').nth(1).unwrap())
                }
                Happening::ToClient(client, bytes) => {
                    let said = (1..=14).find(|&n| refusal(n) == bytes).map(|n| format!("!{n}"));
                    format!("{}>{}", client + 1, said.unwrap_or(String::from_utf8_lossy(&bytes[9..12]).to_string()))
                }
                Happening::EndClient(client) => format!("end {}", client + 1),
                Happening::DownServer(server) => format!("down {}", server + 1),
            });
        }
    }
    out.join(", ")
}

#[test]
fn responses_go_to_those_who_asked() {
    let two = get(1, "/1", "h") + &get(2, "/2", "h");
    assert_eq!(played(&format!("{two}from server 1 \"{OK}{OK}\"")), "1</1, 1</2, 1>200, 2>200");
    // Client 1 has a next request ready, which goes out only after the whole piece has been heard: so the third response is one that nobody waits for.
    let ready = two.clone() + &get(1, "/3", "h");
    assert_eq!(played(&format!("{ready}from server 1 \"{OK}{OK}{OK}\"")), "1</1, 1</2, 1>200, 2>200, down 1, 1>!14");
    assert_eq!(played(&format!("{ready}from server 1 \"{OK}{OK}\"")), "1</1, 1</2, 1>200, 2>200, 1</3");
    // The first that was freed goes on first, as far as it can.
    let both = get(2, "/2", "h") + &get(1, "/1", "h") + &get(1, "/3", "i") + &get(2, "/./", "h") + &get(2, "/4", "i");
    assert_eq!(played(&format!("{both}from server 1 \"{OK}{OK}\"")), "1</2, 1</1, 2>200, 1>200, 2>!10, 2</4, 2</3");
}

#[test]
fn statuses_below_200() {
    let asked = get(1, "/1", "h");
    let go_on = "HTTP/1.1 100 \\r\\ncontent-length: x\\r\\n\\r\\n";
    assert_eq!(played(&format!("{asked}from server 1 \"{go_on}{go_on}{OK}\"")), "1</1, 1>100, 1>100, 1>200");
    let switch = "HTTP/1.1 101 Switching\\r\\n\\r\\n";
    assert_eq!(played(&format!("{asked}from server 1 \"{switch}\"\nfrom server 1 \"x\"")), "1</1, 1>101, down 1");
}

#[test]
fn going_down() {
    let two = get(1, "/1", "h") + &get(2, "/2", "h") + &get(2, "/3", "h") + &get(1, "/4", "i");
    let unreadable = "HTTP/1.1 200 OK\\r\\n\\r\\n";
    assert_eq!(played(&format!("{two}from server 1 \"{unreadable}{OK}\"")), "1</1, 1</2, down 1, 1>!14, 2>!14, 2</4, 2>!14");
    // A piece of no bytes changes nothing, and nothing is heard of a connection that is down. Rules are asked before it is looked at.
    assert_eq!(played("from server 1 \"\"\nfrom server 1 00\nfrom server 1 00"), "down 1");
    let denied = "from client 1 \"PUT / HTTP/1.1\\r\\nHost: h\\r\\nContent-Length: 0\\r\\n\\r\\n\"\n";
    assert_eq!(played(&format!("from server 1 00\n{denied}{}", get(1, "/", "h"))), "down 1, 1>!12, 1>!14");
    // A line of which it is not known yet whether it has ended is waited for; a byte that is wrong in a line that has not ended is too.
    let one = get(1, "/1", "h");
    assert_eq!(played(&format!("{one}from server 1 \"nonsense\\r\"")), "1</1");
    assert_eq!(played(&format!("{one}from server 1 \"nonsense\\r\"\nfrom server 1 \"x\"")), "1</1, down 1, 1>!14");
}

#[test]
fn clients_end() {
    assert_eq!(played(&format!("from client 3 0a\n{}", get(3, "/", "h"))), "3>!1, end 3");
    // A refused request doesn't make its client wait, and one that waits is not read.
    let piece = "GET /. HTTP/1.1\\r\\nHost: h\\r\\n\\r\\nGET /a HTTP/1.1\\r\\nHost: h\\r\\n\\r\\nx\\n";
    assert_eq!(played(&format!("from client 1 \"{piece}\"\nfrom server 1 \"{OK}\"")), "1>!10, 1</a, 1>200, 1>!1, end 1");
}

fn copy(method: &str, response: &str) -> Option<(String, usize)> {
    match read_response(response.as_bytes(), method.as_bytes()) {
        Ok(response) => Some((String::from_utf8(response.copy).unwrap(), response.taken)),
        Err(Stop::More) => None,
        Err(Stop::Fault { .. }) => Some(("unreadable".to_string(), 0)),
    }
}

#[test]
fn copies() {
    let some = |text: &str, taken| Some((text.to_string(), taken));
    // 17 bytes of first line, 28 of the encoding, 2, and 3 + 4 + 5 of body.
    assert_eq!(
        copy("GET", "HTTP/1.1 200 OK\r\nTransfer-Encoding: chunked\r\n\r\n2\r\nab\r\n0\r\n\r\nrest"),
        some("HTTP/1.1 200 OK\r\ncontent-length: 2\r\n\r\nab", 17 + 28 + 2 + 7 + 5)
    );
    assert_eq!(
        copy("GET", "HTTP/1.1 599 \r\nA:  b\t c \r\nContent-Length: 00\r\nHost: x\r\nConnection: host, a2\r\nA2: 1\r\nTE: x\r\nB:\r\n\r\n"),
        some("HTTP/1.1 599 \r\na: b c\r\nhost: x\r\nb: \r\ncontent-length: 0\r\n\r\n", 15 + 11 + 20 + 9 + 22 + 7 + 7 + 4 + 2)
    );
    // No body may follow: lengths and encodings are not looked at, and none is written.
    let both = "Content-Length: x\r\nContent-Length: 5\r\nTransfer-Encoding: y\r\n\r\n";
    for (method, status) in [("HEAD", 200), ("GET", 100), ("GET", 199), ("GET", 204), ("POST", 304), ("GET", 101)] {
        let text = format!("HTTP/1.1 {status} \r\n{both}");
        assert_eq!(copy(method, &text), some(&format!("HTTP/1.1 {status} \r\n\r\n"), text.len()));
    }
    assert_eq!(copy("GET", &format!("HTTP/1.1 205 \r\n{both}")), some("unreadable", 0));
}

#[test]
fn unreadable_responses() {
    for response in [
        "HTTP/1.1 200\r\n",
        "HTTP/1.1 099 \r\n",
        "HTTP/1.1 600 \r\n",
        "HTTP/1.0 200 \r\n",
        "HTTP/1.1 200 \t\r\n",
        "\r\n",
        "HTTP/1.1 200 OK\n",
        "HTTP/1.1 200 OK\r\nx\r\n",
        "HTTP/1.1 200 OK\r\n\r\n",
        "HTTP/1.1 200 OK\r\ncontent-length: 262144\r\n\r\n",
        "HTTP/1.1 200 OK\r\ncontent-length: 0000000\r\n\r\n",
        "HTTP/1.1 200 OK\r\ncontent-length: 1\r\ntransfer-encoding: chunked\r\n\r\n",
        "HTTP/1.1 200 OK\r\ntransfer-encoding: chunked\r\n\r\n40000\r\n",
        "HTTP/1.1 200 OK\r\ntransfer-encoding: chunked\r\n\r\n0\r\nx",
    ] {
        assert_eq!(copy("GET", response), Some(("unreadable".to_string(), 0)), "{response:?}");
    }
    let head = |length: usize| format!("HTTP/1.1 204 \r\nx: {}\r\n\r\n", "x".repeat(length - 22));
    assert_eq!(copy("GET", &head(20_480)).unwrap().1, 20_480);
    assert_eq!(copy("GET", &head(20_481)).unwrap().0, "unreadable");
    assert_eq!(copy("GET", &head(20_481)[..20_479]), None);
    let fields = |count: usize| format!("HTTP/1.1 204 \r\n{}\r\n", "x:\r\n".repeat(count));
    assert_eq!(copy("GET", &fields(64)).unwrap().1, 15 + 64 * 4 + 2);
    assert_eq!(copy("GET", &fields(65)).unwrap().0, "unreadable");
}

#[test]
fn refusals() {
    assert_eq!(refusal(5), b"HTTP/1.1 400 5\r\ncontent-length: 0\r\n\r\n");
    let statuses = [400, 431, 400, 421, 400, 411, 413, 400, 400, 400, 400, 403, 503, 502];
    for (i, status) in statuses.into_iter().enumerate() {
        assert!(refusal(i as u8 + 1).starts_with(format!("HTTP/1.1 {status} {}\r\n", i + 1).as_bytes()));
    }
}

/// The number of the first bad line, or 0.
fn bad_line(script: &str) -> usize {
    play_all(script.as_bytes()).1.map_or(0, |(number, _)| number)
}

#[test]
fn bad_lines() {
    for good in [
        "",
        "\n\n#\t\r\n",
        "server h",
        "server h\ndeny - /\nallow GET,GET /a/.\nfrom client 16 \"\"\nfrom server 1 0A0b",
        "from client 1 \"\\x41\\\\\\\"\\r\\n\\t ~\"\n",
    ] {
        assert_eq!(bad_line(good), 0, "{good:?}");
    }
    for bad in [
        " ",
        "server",
        "server ",
        "server  h",
        " server h",
        "server h ",
        "server h h",
        "server a_b",
        "Server h",
        "server h\r",
        "allow GET /",
        "from client 0 00",
        "from client 17 00",
        "from client 01 00",
        "from client 1",
        "from client 1 ",
        "from client 1 0",
        "from client 1 0g",
        "from client 1 00 ",
        "from client 1 \"",
        "from client 1 \"a\" ",
        "from client 1 \"\\x4\"",
        "from client 1 \"\\q\"",
        "from client 1 \"\t\"",
        "from client 1 \"\u{7f}\"",
        "from client  1 00",
        "from server 1 00",
        "from client 99999999999999999999 00",
    ] {
        assert_eq!(bad_line(&format!("# first\n{bad}\n#last")), 2, "{bad:?}");
    }
    for rule in [
        "allow GET",
        "allow GET ",
        "allow GET, /",
        "allow get /",
        "allow GET a",
        "allow GET /a/",
        "allow GET //",
        "allow GET /A",
        "allow GET /%61",
        "allow -,GET /",
        "deny  /",
    ] {
        assert_eq!(bad_line(&format!("server h\n{rule}")), 2, "{rule:?}");
    }
    assert_eq!(bad_line("server h\nserver H"), 2);
    assert_eq!(bad_line("server h\nfrom client 1 \"\"\nallow GET /"), 3);
    assert_eq!(bad_line(&(0..9).map(|i| format!("server {i}\n")).collect::<String>()), 9);
    assert_eq!(bad_line(&format!("server h\n{}", "deny - /\n".repeat(65))), 66);
    assert_eq!(bad_line(&format!("server h\ndeny GET {}", "/a".repeat(17))), 2);
    assert_eq!(bad_line(&format!("server h\ndeny A{} /", ",A".repeat(8))), 2);
    assert_eq!(bad_line(&format!("server h\ndeny {} /", "A".repeat(17))), 2);
    assert_eq!(bad_line(&format!("server {}", "a".repeat(254))), 1);
    // What was printed for earlier lines stands.
    assert_eq!(play_all(b"server h\nfrom server 1 00\nx").0, "down server 1\n");
}
