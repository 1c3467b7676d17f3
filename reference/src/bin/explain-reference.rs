//! Says what is found in one client's bytes on standard input, as `explain` does.

use std::io::{self, Read, Write};
use std::os::unix::ffi::OsStrExt;
use std::process::ExitCode;

use reference::explain::explain;
use reference::script::read_settings;

fn main() -> io::Result<ExitCode> {
    let arguments: Vec<_> = std::env::args_os().skip(1).collect();
    let [path] = arguments.as_slice() else {
        eprintln!("explain-reference SETTINGS < BYTES");
        return Ok(ExitCode::from(1));
    };
    let problem = match std::fs::read(path) {
        Err(error) => error.to_string(),
        Ok(text) => match read_settings(&text) {
            Err((number, problem)) => format!("line {number}: {problem}"),
            Ok(servers) => {
                let mut bytes = Vec::new();
                io::stdin().lock().read_to_end(&mut bytes)?;
                io::stdout().lock().write_all(&explain(&bytes, &servers))?;
                return Ok(ExitCode::SUCCESS);
            }
        },
    };
    let message = [path.as_bytes(), b": ", problem.as_bytes(), b"\n"].concat();
    io::stderr().lock().write_all(&message)?;
    Ok(ExitCode::from(1))
}
