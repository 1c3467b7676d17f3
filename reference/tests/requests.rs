//! The trickiest rules of requests. All values are worked out by hand from docs/RULES.md.

use reference::explain::explain;
use reference::script::read_settings;

const SETTINGS: &str = "server h\nallow GET,HEAD,POST,PUT,PATCH,DELETE,ABCDEFGHIJKLMNOP /\n";

fn found_by(settings: &str, bytes: &[u8]) -> String {
    String::from_utf8(explain(bytes, &read_settings(settings.as_bytes()).unwrap())).unwrap()
}

/// What `explain` prints, in one line, with ` / ` between the lines.
fn found(bytes: impl AsRef<[u8]>) -> String {
    found_by(SETTINGS, bytes.as_ref()).trim_end_matches('\n').replace('\n', " / ")
}

/// What is found of a GET with this target.
fn target(target: &str) -> String {
    found(format!("GET {target} HTTP/1.1\r\nHost: h\r\n\r\n"))
}

/// What is found of a GET of `/` with these lines behind its first, which has 16 bytes.
fn fields(lines: &str) -> String {
    found(format!("GET / HTTP/1.1\r\n{lines}"))
}

/// What is found of a POST with this chunked body, which begins at 18 + 9 + 28 + 2.
fn chunks(body: &str) -> String {
    found(format!("POST /b HTTP/1.1\r\nHost: h\r\nTransfer-Encoding: chunked\r\n\r\n{body}"))
}

#[test]
fn examples_of_the_page() {
    assert_eq!(target("/a%62"), "pass 1 /   GET /ab HTTP/1.1 /   host: h");
    assert_eq!(chunks("2\r\nx=\r\n1\r\n1\r\n0\r\n\r\n"), "pass 1 /   POST /b HTTP/1.1 /   host: h /   content-length: 3 /   body 3 783d31");
    assert_eq!(target("/a//b"), "fault 10 at 7");
    assert_eq!(target("/a/%2e%2e/b"), "fault 10 at 13");
    assert_eq!(target("/a%2fb"), "fault 9 at 6");
    assert_eq!(target("/%e9"), "pass 1 /   GET /%E9 HTTP/1.1 /   host: h");
    assert_eq!(found("POST /b HTTP/1.1\r\nHost: h\r\nContent-Length: 3\r\nTransfer-Encoding: chunked\r\n\r\n"), "fault 5 at 46");
    assert_eq!(found("GET /b HTTP/1.1\r\nHost: h\r\nContent-Length: 0\r\n\r\n"), "fault 6 at 26");
    assert_eq!(found("POST /b HTTP/1.1\r\nHost: h\r\n\r\n"), "fault 6 at 27");
}

#[test]
fn first_lines() {
    for (line, place) in [
        ("\r\n", 0),
        ("get\n", 0),
        (" GET / HTTP/1.1\r\n", 0),
        ("GET  / HTTP/1.1\r\n", 4),
        ("GET\r\n", 3),
        ("GET /\r\n", 5),
        ("GET / \r\n", 6),
        ("GET /  HTTP/1.1\r\n", 6),
        ("GET / HTTP/1.0\r\n", 13),
        ("GET / HTTP/1.1 \r\n", 14),
        ("GET / HTTP/1.1\n", 14),
        ("GET / HTTP/1.1\rX", 14),
        ("GET / HTTP/1.1\r\r\n", 14),
        ("GET / http/1.1\n", 6),
        ("GET *\r\n", 4),
        ("ABCDEFGHIJKLMNOPQ / HTTP/1.1\r\n", 16),
    ] {
        assert_eq!(found(line), format!("fault 1 at {place}"), "{line:?}");
    }
    // Until a line has ended or its stray byte is known, nothing is said of it.
    assert_eq!(found(""), "");
    assert_eq!(found("get"), "more");
    assert_eq!(found("GET / HTTP/1.1\r"), "more");
    assert_eq!(found("ABCDEFGHIJKLMNOP / HTTP/1.1\r\nHost: h\r\n\r\n"), "pass 1 /   ABCDEFGHIJKLMNOP / HTTP/1.1 /   host: h");
}

#[test]
fn field_lines() {
    for (lines, answer) in [
        ("x y: 1\r\n", "fault 3 at 17"),
        (" x: 1\r\n", "fault 3 at 16"),
        ("x : 1\r\n", "fault 3 at 17"),
        (": 1\r\n", "fault 3 at 16"),
        ("\n", "fault 3 at 16"),
        ("\rX", "fault 3 at 16"),
        ("\r", "more"),
        ("x\r\n", "fault 3 at 17"),
        ("x: a\x7f\n", "fault 3 at 20"),
        ("x: a\0\r\n", "fault 3 at 20"),
        ("x: a\n", "fault 3 at 20"),
        ("x: a\r\r\n", "fault 3 at 20"),
        ("x: a\x7f", "more"),
    ] {
        assert_eq!(fields(lines), answer, "{lines:?}");
    }
    // A long name comes before a wrong byte in it, and before there being no colon.
    let (name_64, name_65) = ("n".repeat(64), "n".repeat(65));
    assert_eq!(fields(&format!("{name_65}: 1\r\n")), "fault 2 at 80");
    assert_eq!(fields(&format!(" _{name_64}: 1\r\n")), "fault 2 at 80");
    assert_eq!(fields(&format!("{name_65}\n")), "fault 2 at 80");
    assert_eq!(fields(&format!("{name_64}\r\n")), "fault 3 at 80");
    assert_eq!(fields(&format!("{name_65}: 1\r")), "more");
    // A 65th field comes before all else in its line. The empty line is no field.
    let many = "x:\r\n".repeat(63);
    assert_eq!(fields(&format!("Host: h\r\n{many}\r\n")), format!("pass 1 /   GET / HTTP/1.1 /   host: h{}", " /   x: ".repeat(63)));
    assert_eq!(fields(&format!("Host: h\r\n{many}{name_65}\n")), format!("fault 2 at {}", 16 + 9 + 63 * 4));
    assert_eq!(fields(&format!("Host: h\r\n{many}\n")), format!("fault 2 at {}", 16 + 9 + 63 * 4));
}

#[test]
fn the_window() {
    let long = |length: usize| format!("GET /{}", "a".repeat(length - 5));
    assert_eq!(found(long(20_479)), "more");
    assert_eq!(found(long(20_480)), "fault 2 at 20480");
    assert_eq!(found(long(20_479) + "\r"), "fault 2 at 20480");
    assert_eq!(found(long(20_479) + "\r\n"), "fault 2 at 20480");
    assert_eq!(found(long(20_479) + "\n"), "fault 1 at 20479");
    assert_eq!(found(long(20_478) + "\r\n"), "fault 1 at 20478");
    // A first line of 16 bytes, one of 9, a field of 6 and more bytes, an empty line of 2.
    let head = |length: usize| format!("GET / HTTP/1.1\r\nHost: h\r\nte: {}\r\n\r\n", "t".repeat(length - 33));
    assert_eq!(found(head(20_480)), "pass 1 /   GET / HTTP/1.1 /   host: h");
    assert_eq!(found(head(20_481)), "fault 2 at 20480");
    // Lines that ended inside are judged first.
    assert_eq!(found(format!("GET / HTTP/1.1\r\nx y: 1\r\nz: {}", "z".repeat(30_000))), "fault 3 at 17");
}

#[test]
fn hosts() {
    assert_eq!(fields("\r\n"), "fault 4 at 16");
    assert_eq!(fields("x: 1\r\n\r\n"), "fault 4 at 22");
    assert_eq!(fields("Host: z\r\nHost: h\r\n\r\n"), "fault 4 at 25");
    assert_eq!(fields("Host:  z\r\n\r\n"), "fault 4 at 23");
    assert_eq!(fields("Host:   \r\n\r\n"), "fault 4 at 24");
    assert_eq!(fields("Host: h:80\r\n\r\n"), "fault 4 at 22");
    assert_eq!(fields("HOST:\tH\t\r\n\r\n"), "pass 1 /   GET / HTTP/1.1 /   host: H");
}

#[test]
fn lengths_and_encodings() {
    let post = |lines: &str| found(format!("POST /b HTTP/1.1\r\nHost: h\r\n{lines}\r\n"));
    assert_eq!(post("Content-Length: 1234567\r\n"), "fault 5 at 43");
    assert_eq!(post("Content-Length: +1\r\n"), "fault 5 at 43");
    assert_eq!(post("Content-Length:  \r\n"), "fault 5 at 44");
    assert_eq!(post("Transfer-Encoding: gzip\r\n"), "fault 5 at 46");
    assert_eq!(post("Content-Length: x\r\nContent-Length: 1\r\n"), "fault 5 at 43");
    assert_eq!(post("Content-Length: 1\r\nContent-Length: x\r\n"), "fault 5 at 46");
    assert_eq!(post("Content-Length: 1\r\nContent-Length: 1\r\n"), "fault 5 at 46");
    assert_eq!(post("Content-Length: 262144\r\n"), "fault 7 at 43");
    assert_eq!(post("Content-Length: 999999\r\n"), "fault 7 at 43");
    assert_eq!(post("Content-Length: 262143\r\n"), "more");
    assert_eq!(post("Content-Length: 000000\r\n"), "pass 1 /   POST /b HTTP/1.1 /   host: h /   content-length: 0 /   body 0");
    // 4 comes before 5, 5 before 6, 6 before 7.
    assert_eq!(fields("Content-Length: x\r\n\r\n"), "fault 4 at 35");
    assert_eq!(fields("Host: h\r\nContent-Length: x\r\n\r\n"), "fault 5 at 41");
    assert_eq!(fields("Host: h\r\nContent-Length: 999999\r\n\r\n"), "fault 6 at 25");
}

#[test]
fn chunked_bodies() {
    for (body, answer) in [
        ("", "more"),
        ("\r", "fault 8 at 57"),
        ("g", "fault 8 at 57"),
        ("1;", "fault 8 at 58"),
        ("000001", "fault 8 at 62"),
        ("1\rx", "fault 8 at 59"),
        ("1\n", "fault 8 at 58"),
        ("1\r\nab", "fault 8 at 61"),
        ("1\r\na\ra", "fault 8 at 62"),
        ("0\r\nX", "fault 8 at 60"),
        ("0\r\n\rX", "fault 8 at 61"),
        ("0\r\n\r", "more"),
        ("3ffff\r\n", "more"),
        ("40000\r", "more"),
        ("40000\rx", "fault 8 at 63"),
        ("40000\r\n", "fault 7 at 57"),
        ("fffff\r\n", "fault 7 at 57"),
        ("1\r\nx\r\n3FFFF\r\n", "fault 7 at 63"),
        ("1\r\nx\r\n3FFFE\r\n", "more"),
        ("00000\r\n\r\n", "pass 1 /   POST /b HTTP/1.1 /   host: h /   content-length: 0 /   body 0"),
    ] {
        assert_eq!(chunks(body), answer, "{body:?}");
    }
    // A fault of the body comes before one of the target; the target waits for the body.
    let with = |body: &str| found(format!("POST /. HTTP/1.1\r\nHost: h\r\nTransfer-Encoding: chunked\r\n\r\n{body}"));
    assert_eq!(with("x"), "fault 8 at 57");
    assert_eq!(with("0\r\n\r"), "more");
    assert_eq!(with("0\r\n\r\n"), "fault 10 at 7");
}

#[test]
fn targets() {
    for (asked, answer) in [
        ("/%?41", "fault 9 at 5"),
        ("/a%4?1", "fault 9 at 6"),
        ("/a%2", "fault 9 at 6"),
        ("/a%zz", "fault 9 at 6"),
        ("/%25", "fault 9 at 5"),
        ("/%7f", "fault 9 at 5"),
        ("/%%61", "fault 9 at 5"),
        ("/a\tb", "fault 9 at 6"),
        ("/;", "fault 9 at 5"),
        ("/.", "fault 10 at 6"),
        ("/a.%2E?x", "fault 10 at 10"),
        ("/a/", "fault 10 at 7"),
        ("//", "fault 10 at 5"),
        ("/a./b", "fault 10 at 7"),
        // 9 anywhere, then 10 anywhere, then 11.
        ("/./%2f?#", "fault 9 at 7"),
        ("/./x?#", "fault 10 at 6"),
        ("/a?b#", "fault 11 at 8"),
        ("/?\x7f", "fault 11 at 6"),
    ] {
        assert_eq!(target(asked), answer, "{asked:?}");
    }
    for (asked, sent) in [
        ("/", "/"),
        ("/?", "/"),
        ("/a?", "/a"),
        ("/a??", "/a??"),
        ("/a%2eb", "/a.b"),
        ("/%2e.a", "/..a"),
        ("/%7E%c3%Bf", "/~%C3%BF"),
        ("/a?%zz%2f%/..//", "/a?%zz%2f%/..//"),
    ] {
        assert_eq!(target(asked), format!("pass 1 /   GET {sent} HTTP/1.1 /   host: h"), "{asked:?}");
    }
}

#[test]
fn dropped_fields() {
    let sent = |lines: &str| fields(&format!("{lines}\r\n")).replace("pass 1 /   GET / HTTP/1.1", "");
    assert_eq!(sent("Host: h\r\nTE: a\r\nX:  a \t b \r\nUpgrade: y\r\n"), " /   host: h /   x: a b");
    assert_eq!(
        sent("x-a: 1\r\nHost: h\r\nConnection: close,\tX-A\t,, x-b\r\nx-b: 1\r\nx-c: 1\r\nconnection: X-C\r\nclose: 1\r\nx: 1\r\n"),
        " /   host: h /   x: 1"
    );
    assert_eq!(sent("Connection: host\r\nHost: h\r\n"), " /   host: h");
    assert_eq!(sent("Connection: x y\r\nHost: h\r\nx: 1\r\ny: 1\r\n"), " /   host: h /   x: 1 /   y: 1");
    // To name the length changes nothing in how the body is read.
    assert_eq!(
        found("POST / HTTP/1.1\r\nConnection: content-length\r\nHost: h\r\nContent-Length: 1\r\n\r\nx"),
        "pass 1 /   POST / HTTP/1.1 /   host: h /   content-length: 1 /   body 1 78"
    );
}

#[test]
fn canonical_heads() {
    // A first line of 16 bytes, `host: h` with 9, the empty line with 2, and `x: ` with CR LF has 5.
    let head = |length: usize| format!("GET / HTTP/1.1\r\nHost: h\r\nx: {}\r\n\r\n", "x".repeat(length - 32));
    assert!(found(head(16_384)).starts_with("pass 1"));
    assert_eq!(found(head(16_385)), "fault 2 at 16385");
    // It ends the client's connection, and comes after 9 to 11 and before 12.
    assert_eq!(found(head(16_385) + "GET / HTTP/1.1\r\nHost: h\r\n\r\n"), "fault 2 at 16385");
    assert_eq!(found(head(16_385).replace("GET /", "GET /.")), "fault 10 at 6");
    assert_eq!(found(head(16_385).replace("GET", "NOT")), "fault 2 at 16385");
    // The written length counts; what is dropped doesn't.
    let post = |length: usize| format!("POST / HTTP/1.1\r\nHost: h\r\nContent-Length: 000001\r\nx: {}\r\n\r\n.", "x".repeat(length - 33 - 19));
    assert!(found(post(16_384)).starts_with("pass 1"));
    assert_eq!(found(post(16_385)), "fault 2 at 16390");
}

#[test]
fn requests_in_a_row() {
    let (good, denied) = ("GET /a HTTP/1.1\r\nHost: h\r\n\r\n", "NOT /a HTTP/1.1\r\nHost: h\r\n\r\n");
    let pass = "pass 1 /   GET /a HTTP/1.1 /   host: h";
    assert_eq!(found([denied, good, "G"].concat()), format!("fault 12 at 0 / {pass} / more"));
    assert_eq!(found([good, "\r\n", good].concat()), format!("{pass} / fault 1 at 0"));
}

#[test]
fn rules() {
    let settings = "server h\ndeny GET /admin\nallow GET,POST /a/b\ndeny GET /a\nallow GET /\nallow - /\nserver none\nserver Last\nallow HEAD /x\n";
    let asked = |method: &str, path: &str, host: &str| {
        let answer = found_by(settings, format!("{method} {path} HTTP/1.1\r\nHost: {host}\r\n\r\n").as_bytes());
        answer.lines().next().unwrap().to_string()
    };
    assert_eq!(asked("GET", "/Admin/x", "h"), "fault 12 at 0");
    assert_eq!(asked("GET", "/%61dmi%6E", "h"), "fault 12 at 0");
    assert_eq!(asked("GET", "/administration", "h"), "pass 1");
    assert_eq!(asked("GET", "/admin%E9", "h"), "pass 1");
    assert_eq!(asked("GET", "/a/B/c", "h"), "pass 1");
    assert_eq!(asked("GET", "/a", "h"), "fault 12 at 0");
    assert_eq!(asked("GET", "/?admin", "h"), "pass 1");
    assert_eq!(asked("DELETE", "/", "h"), "fault 12 at 0");
    assert_eq!(asked("GET", "/", "none"), "fault 12 at 0");
    assert_eq!(asked("HEAD", "/X", "lasT"), "pass 3");
    assert_eq!(asked("HEAD", "/", "last"), "fault 12 at 0");
    assert_eq!(asked("GET", "/x", "last"), "fault 12 at 0");
}
