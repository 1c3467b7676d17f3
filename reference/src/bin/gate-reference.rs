//! Plays a script from standard input, as `gate` does.

use std::io::{self, BufRead, Write};
use std::process::ExitCode;

use reference::bytes::LF;
use reference::script::{say, Player};

fn main() -> io::Result<ExitCode> {
    let mut input = io::stdin().lock();
    let mut output = io::stdout().lock();
    let mut player = Player::default();
    let mut number = 0;
    loop {
        let mut line = Vec::new();
        if input.read_until(LF, &mut line)? == 0 {
            return Ok(ExitCode::SUCCESS);
        }
        number += 1;
        if line.last() == Some(&LF) {
            line.pop();
        }
        match player.play(&line) {
            Ok(happenings) => {
                for happening in happenings {
                    writeln!(output, "{}", say(&happening))?;
                }
                output.flush()?;
            }
            Err(problem) => {
                eprintln!("line {number}: {problem}");
                return Ok(ExitCode::from(1));
            }
        }
    }
}
