//! Runs the program `qspath` and reads the line that it writes.

use std::fmt;
use std::io::{ErrorKind, Write};
use std::path::Path;
use std::process::{Command, Stdio};

/// What the program says of a path.
#[derive(Clone, Copy, PartialEq, Eq, Debug)]
pub enum Answer {
    Rate(u8),
    Lost,
    Unanswered,
    Refused(u8),
    Bad(usize),
}

impl fmt::Display for Answer {
    fn fmt(&self, f: &mut fmt::Formatter) -> fmt::Result {
        match self {
            Answer::Rate(code) => write!(f, "rate {code}"),
            Answer::Lost => write!(f, "lost"),
            Answer::Unanswered => write!(f, "unanswered"),
            Answer::Refused(number) => write!(f, "none {number}"),
            Answer::Bad(at) => write!(f, "bad {at}"),
        }
    }
}

/// The answer that a line with its newline tells; nothing if it is written in any other way.
fn read_answer(output: &str) -> Option<Answer> {
    let line = output.strip_suffix('\n')?;
    let (word, number) = line.split_once(' ').unwrap_or((line, ""));
    let answer = match word {
        "rate" => Answer::Rate(number.parse().ok()?),
        "lost" => Answer::Lost,
        "unanswered" => Answer::Unanswered,
        "none" => Answer::Refused(number.parse().ok()?),
        "bad" => Answer::Bad(number.parse().ok()?),
        _ => return None,
    };
    (answer.to_string() == line).then_some(answer)
}

/// The program's answer to an input. The program stops reading once its line is settled, so a pipe that
/// it closed is no fault.
pub fn run(program: &Path, input: &[u8]) -> Result<Answer, String> {
    let shown = program.display();
    let mut child = Command::new(program)
        .stdin(Stdio::piped())
        .stdout(Stdio::piped())
        .spawn()
        .map_err(|error| format!("{shown} cannot be run: {error}"))?;
    if let Some(mut stdin) = child.stdin.take() {
        match stdin.write_all(input) {
            Err(error) if error.kind() != ErrorKind::BrokenPipe => {
                return Err(format!("{shown} cannot be fed: {error}"));
            }
            _ => {}
        }
    }
    let ended = child.wait_with_output().map_err(|error| format!("{shown} gives no output: {error}"))?;
    if !ended.status.success() {
        return Err(format!("{shown} ended with {}", ended.status));
    }
    let output = String::from_utf8_lossy(&ended.stdout);
    read_answer(&output).ok_or(format!("{shown} wrote {output:?}, which is no line that it may write"))
}
