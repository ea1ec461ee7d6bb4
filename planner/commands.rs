//! The five commands, each from the bytes of a file to what is written and the exit status.

use crate::journey::{self, Journey};
use crate::picture;
use crate::program::{self, Answer};
use crate::records::{self, Record};
use crate::svg;
use crate::table;
use crate::text::{self, Line, TextError};
use crate::wrong::{self, Wrong};
use std::path::Path;

/// Exit statuses: a verdict or a conversion; a path or a text that is wrong; bad usage; and a fault of
/// the tool, of the program or of the library.
pub const GOOD: u8 = 0;
pub const WRONG: u8 = 1;
pub const USAGE: u8 = 2;
pub const FAULT: u8 = 3;

/// So many lines that cannot be read are named; the others are only counted.
const MOST_NAMED: usize = 20;

#[derive(Clone, Copy, PartialEq, Eq, Debug)]
pub enum Command {
    Line,
    Explain,
    Svg,
    Records,
    Text,
}

/// What a command writes, and its exit status.
#[derive(Clone, PartialEq, Eq, Debug)]
pub struct Outcome {
    pub stdout: Vec<u8>,
    pub stderr: String,
    pub status: u8,
}

/// What the program says of a path, and why if it is bad. The tool has found the same fault.
struct Judged {
    answer: Answer,
    wrong: Option<Wrong>,
}

impl Outcome {
    fn good(stdout: impl Into<Vec<u8>>) -> Outcome {
        Outcome { stdout: stdout.into(), stderr: String::new(), status: GOOD }
    }

    fn wrong(stdout: impl Into<Vec<u8>>, stderr: String) -> Outcome {
        Outcome { stdout: stdout.into(), stderr, status: WRONG }
    }

    fn fault(message: &str) -> Outcome {
        Outcome { stdout: Vec::new(), stderr: format!("qsplan: {message}\n"), status: FAULT }
    }

    fn disagreement(answer: Answer, own: &str) -> Outcome {
        Outcome::fault(&format!(
            "DISAGREEMENT: the program writes `{answer}`, but {own}.\n\
             One of the two is wrong. Do not rely on either, and report this path."
        ))
    }
}

/// What is said of the lines that cannot be read. Some input is no text, but the records themselves.
fn unreadable(name: &str, input: &[u8], errors: &[TextError]) -> String {
    let named = errors.iter().take(MOST_NAMED);
    let mut said: String = named.map(|error| format!("{name}:{error}\n")).collect();
    said += &match errors.len().saturating_sub(MOST_NAMED) {
        0 => String::new(),
        1 => format!("{name}: 1 more line cannot be read\n"),
        more => format!("{name}: {more} more lines cannot be read\n"),
    };
    if input.contains(&0) || errors.iter().any(|error| error.message == text::NOT_TEXT) {
        said += "qsplan: if these are records, use --text\n";
    }
    said
}

fn read(name: &str, input: &[u8]) -> Result<Vec<Line>, Outcome> {
    text::parse(input).map_err(|errors| Outcome::wrong("", unreadable(name, input, &errors)))
}

fn records_of(lines: &[Line]) -> Vec<Record> {
    lines.iter().map(|line| line.record).collect()
}

/// The program's answer to a path, which must be bad exactly where the tool finds the path wrong.
fn judge(program: &Path, lines: &[Line]) -> Result<Judged, Outcome> {
    let input = records::to_bytes(&records_of(lines));
    let answer = program::run(program, &input).map_err(|message| Outcome::fault(&message))?;
    let wrong = wrong::first(lines);
    match (answer, &wrong) {
        (Answer::Bad(at), Some(wrong)) if at == wrong.at => {}
        (answer, Some(wrong)) => {
            let own = format!("this tool finds the path wrong at byte {}: {}", wrong.at, wrong.reason);
            return Err(Outcome::disagreement(answer, &own));
        }
        (Answer::Bad(_), None) => {
            return Err(Outcome::disagreement(answer, "this tool finds nothing wrong with the path"));
        }
        (_, None) => {}
    }
    Ok(Judged { answer, wrong })
}

/// The request's way along a good path, which must end in the program's answer.
fn travel(lines: &[Line], answer: Answer) -> Result<Journey, Outcome> {
    let journey = journey::travel(lines).map_err(|message| Outcome::fault(&message))?;
    if journey.answer() == answer {
        Ok(journey)
    } else {
        let own = format!("the library's functions, called hop by hop, end in `{}`", journey.answer());
        Err(Outcome::disagreement(answer, &own))
    }
}

fn line(program: &Path, name: &str, input: &[u8]) -> Result<Outcome, Outcome> {
    let lines = read(name, input)?;
    let Judged { answer, wrong } = judge(program, &lines)?;
    let written = format!("{answer}\n");
    Ok(match wrong {
        Some(wrong) => Outcome::wrong(written, wrong::explain(name, &lines, &wrong)),
        None => Outcome::good(written),
    })
}

fn explain(program: &Path, name: &str, input: &[u8]) -> Result<Outcome, Outcome> {
    let lines = read(name, input)?;
    let Judged { answer, wrong } = judge(program, &lines)?;
    if let Some(wrong) = wrong {
        let why = wrong::explain(name, &lines, &wrong);
        return Ok(Outcome::wrong(format!("{why}\n{answer}\n"), String::new()));
    }
    let journey = travel(&lines, answer)?;
    let (table, picture) = (table::table(&journey), picture::picture(&journey));
    Ok(Outcome::good(format!("{table}\n{picture}\n{answer}\n")))
}

fn draw(program: &Path, name: &str, input: &[u8]) -> Result<Outcome, Outcome> {
    let lines = read(name, input)?;
    let Judged { answer, wrong } = judge(program, &lines)?;
    if let Some(wrong) = wrong {
        let why = wrong::explain(name, &lines, &wrong);
        return Err(Outcome::wrong("", format!("{answer}\n{why}")));
    }
    let journey = travel(&lines, answer)?;
    Ok(Outcome::good(svg::svg(&journey, answer)))
}

fn to_records(name: &str, input: &[u8]) -> Result<Outcome, Outcome> {
    let lines = read(name, input)?;
    Ok(Outcome::good(records::to_bytes(&records_of(&lines))))
}

fn to_text(program: &Path, name: &str, input: &[u8]) -> Result<Outcome, Outcome> {
    let broken = match records::from_bytes(input) {
        Ok(records) => return Ok(Outcome::good(text::print(&records))),
        Err(broken) => broken,
    };
    let answer = program::run(program, input).map_err(|message| Outcome::fault(&message))?;
    let why =
        format!("{name}: {broken}\nThese bytes cannot be told as text. The program says: {answer}\n");
    if !matches!(answer, Answer::Bad(_)) {
        return Err(Outcome::disagreement(answer, &format!("this tool finds: {broken}")));
    }
    Ok(Outcome::wrong("", why))
}

/// Runs a command on the bytes of a file; the file's name is for messages.
pub fn run(command: Command, program: &Path, name: &str, input: &[u8]) -> Outcome {
    let ended = match command {
        Command::Line => line(program, name, input),
        Command::Explain => explain(program, name, input),
        Command::Svg => draw(program, name, input),
        Command::Records => to_records(name, input),
        Command::Text => to_text(program, name, input),
    };
    ended.unwrap_or_else(|outcome| outcome)
}
