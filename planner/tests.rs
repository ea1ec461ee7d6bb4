//! Tests of the planner. `planner/test` builds and runs them:
//!
//!   tests ROOT ARCHIVE PROGRAM OUT
//!
//! ROOT is the repository's root, ARCHIVE the library that these tests are linked with, PROGRAM the built
//! program `qspath`, and OUT a folder to write to. All are full paths.
//!
//! The last line is `N passed, M failed`; the exit status is 0 only if M is 0 and N is not.

mod commands;
mod journey;
mod packet;
mod picture;
mod program;
mod records;
#[path = "../host/report.rs"]
mod report;
mod svg;
mod table;
mod tests_draw;
mod tests_forms;
mod tests_hops;
mod tests_script;
mod tests_wrong;
mod text;
mod wrong;

use report::Report;
use std::fmt::Debug;
use std::fs;
use std::os::unix::fs::PermissionsExt;
use std::path::{Path, PathBuf};

/// Where things are.
pub struct Place {
    root: PathBuf,
    archive: PathBuf,
    program: PathBuf,
    out: PathBuf,
}

/// A test that two things are the same; both are shown if they are not.
pub fn same<T: PartialEq + Debug>(report: &mut Report, name: &str, found: T, expected: T) {
    if found != expected {
        println!("  found    {found:?}\n  expected {expected:?}");
    }
    report.test(name, found == expected);
}

/// Writes a shell script that can be run.
pub fn script(at: &Path, body: &str) {
    let written = fs::write(at, format!("#!/bin/sh\n{body}"))
        .and_then(|()| fs::set_permissions(at, fs::Permissions::from_mode(0o755)));
    written.unwrap_or_else(|error| panic!("{}: {error}", at.display()));
}

fn main() {
    let arguments: Vec<PathBuf> = std::env::args_os().skip(1).map(PathBuf::from).collect();
    let [root, archive, program, out] = &arguments[..] else {
        println!("usage: tests ROOT ARCHIVE PROGRAM OUT");
        println!("0 passed, 1 failed");
        std::process::exit(1);
    };
    let place = Place {
        root: root.clone(),
        archive: archive.clone(),
        program: program.clone(),
        out: out.clone(),
    };
    let mut report = Report::new();
    tests_forms::all(&mut report, &place);
    tests_wrong::all(&mut report, &place);
    tests_hops::all(&mut report, &place);
    tests_script::all(&mut report, &place);
    report.finish()
}
