//! The planner's tool. `planner/qsplan` builds it and runs it:
//!
//!   qsplan-tool PROGRAM COMMAND FILE
//!
//! PROGRAM is the built program `qspath`; COMMAND is --line, --explain, --svg, --records or --text; FILE
//! is a file, or `-` for standard input.

mod commands;
mod journey;
mod packet;
mod picture;
mod program;
mod records;
mod svg;
mod table;
mod text;
mod wrong;

use commands::{Command, Outcome, FAULT, USAGE, WRONG};
use std::ffi::OsStr;
use std::io::{self, ErrorKind, Read, Write};
use std::path::Path;
use std::process::ExitCode;

fn command_of(option: &OsStr) -> Option<Command> {
    match option.to_str()? {
        "--line" => Some(Command::Line),
        "--explain" => Some(Command::Explain),
        "--svg" => Some(Command::Svg),
        "--records" => Some(Command::Records),
        "--text" => Some(Command::Text),
        _ => None,
    }
}

fn read_input(file: &OsStr) -> io::Result<Vec<u8>> {
    if file != "-" {
        return std::fs::read(file);
    }
    let mut input = Vec::new();
    io::stdin().read_to_end(&mut input)?;
    Ok(input)
}

fn finish(outcome: &Outcome) -> ExitCode {
    let mut stdout = io::stdout().lock();
    let written = stdout.write_all(&outcome.stdout).and_then(|()| stdout.flush());
    eprint!("{}", outcome.stderr);
    match written {
        // a reader who has seen enough is no fault
        Err(error) if error.kind() != ErrorKind::BrokenPipe => {
            eprintln!("qsplan: the output cannot be written: {error}");
            ExitCode::from(FAULT)
        }
        _ => ExitCode::from(outcome.status),
    }
}

fn main() -> ExitCode {
    let arguments: Vec<_> = std::env::args_os().skip(1).collect();
    let [program, option, file] = &arguments[..] else {
        eprintln!("usage: qsplan-tool PROGRAM COMMAND FILE");
        return ExitCode::from(USAGE);
    };
    let Some(command) = command_of(option) else {
        eprintln!("qsplan-tool: no such command: {}", option.to_string_lossy());
        return ExitCode::from(USAGE);
    };
    let shown = file.to_string_lossy();
    let name = if file == "-" { "standard input" } else { &shown };
    match read_input(file) {
        Ok(input) => finish(&commands::run(command, Path::new(program), name, &input)),
        Err(error) => {
            eprintln!("qsplan: {name} cannot be read: {error}");
            ExitCode::from(WRONG)
        }
    }
}
