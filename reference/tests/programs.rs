//! The two programs, with the examples of docs/SCRIPT.md.

use std::io::Write;
use std::process::{Command, Output, Stdio};

fn run(command: &mut Command, input: &[u8]) -> Output {
    let mut child = command.stdin(Stdio::piped()).stdout(Stdio::piped()).stderr(Stdio::piped()).spawn().unwrap();
    // The program may have stopped before it reads.
    drop(child.stdin.take().unwrap().write_all(input));
    child.wait_with_output().unwrap()
}

fn gate(script: &str) -> (String, String, Option<i32>) {
    let output = run(&mut Command::new(env!("CARGO_BIN_EXE_gate-reference")), script.as_bytes());
    (String::from_utf8(output.stdout).unwrap(), String::from_utf8(output.stderr).unwrap(), output.status.code())
}

#[test]
fn scripts_are_played() {
    let script = r#"# one server
server h
deny GET /admin
allow GET,HEAD /

from client 1 "GET /a%62 HTTP/1.1\r\nHost: h\r\n\r\n"
from server 1 "HTTP/1.1 200 OK\r\nContent-Length: 2\r\n\r\nhi"
from client 2 "GET /Admin/x HTTP/1.1\r\nHost: h\r\n\r\n"
"#;
    let output = "to server 1 474554202f616220485454502f312e310d0a686f73743a20680d0a0d0a
to client 1 485454502f312e3120323030204f4b0d0a636f6e74656e742d6c656e6774683a20320d0a0d0a6869
to client 2 485454502f312e31203430332031320d0a636f6e74656e742d6c656e6774683a20300d0a0d0a
";
    assert_eq!(gate(script), (output.to_string(), String::new(), Some(0)));
    let output = "to client 1 485454502f312e312034303020310d0a636f6e74656e742d6c656e6774683a20300d0a0d0a
end client 1
down server 1
";
    assert_eq!(gate("server h\nfrom client 1 0A\nfrom server 1 \"\\x48\""), (output.to_string(), String::new(), Some(0)));
    let (output, errors, status) = gate("server h\nallow GET /\ndeny GET /a/\n");
    assert_eq!((output.as_str(), status), ("", Some(1)));
    assert!(errors.starts_with("line 3: "), "{errors}");
}

#[test]
fn inputs_are_explained() {
    let folder = std::env::temp_dir().join(format!("reference-test-{}", std::process::id()));
    std::fs::create_dir_all(&folder).unwrap();
    let file = folder.join("settings");
    let explain = |settings: &str, arguments: &[&std::path::Path], input: &str| {
        std::fs::write(&file, settings).unwrap();
        let output = run(Command::new(env!("CARGO_BIN_EXE_explain-reference")).args(arguments), input.as_bytes());
        (String::from_utf8(output.stdout).unwrap(), String::from_utf8(output.stderr).unwrap(), output.status.code())
    };
    let good = "server h\nallow GET /\n";
    let (output, errors, status) = explain(good, &[&file], "GET /%62 HTTP/1.1\r\nHost: h\r\n\r\nGET");
    assert_eq!((output.as_str(), errors.as_str(), status), ("pass 1\n  GET /b HTTP/1.1\n  host: h\nmore\n", "", Some(0)));
    let (output, errors, status) = explain("server h\n\nfrom client 1 00\n", &[&file], "");
    assert_eq!((output.as_str(), status), ("", Some(1)));
    assert!(errors.starts_with(&format!("{}: line 3: ", file.display())), "{errors}");
    for arguments in [vec![], vec![file.as_path(), &file], vec![folder.as_path()]] {
        let (output, errors, status) = explain(good, &arguments, "");
        assert_eq!((output.as_str(), status), ("", Some(1)));
        assert!(!errors.is_empty());
    }
    std::fs::remove_dir_all(&folder).unwrap();
}
