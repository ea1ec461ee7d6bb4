//! The command `planner/qsplan` itself, run as a user runs it.

use crate::commands::{FAULT, GOOD, USAGE, WRONG};
use crate::report::Report;
use crate::{same, script, Place};
use std::fs;
use std::io::Write;
use std::path::{Path, PathBuf};
use std::process::{Command, Stdio};
use std::time::{Duration, UNIX_EPOCH};

const WHOLE_CASE: [u8; 16] = [1, 5, 0x40, 0x80, 0, 0, 0, 0, 2, 3, 0xFF, 0xFF, 0xFF, 0xFC, 4, 15];

/// What was written, and the exit status.
#[derive(PartialEq, Debug)]
struct Ended {
    stdout: Vec<u8>,
    stderr: String,
    status: Option<i32>,
}

fn ended(command: &mut Command, input: &[u8]) -> Ended {
    let child = command.stdin(Stdio::piped()).stdout(Stdio::piped()).stderr(Stdio::piped()).spawn();
    let finished = child.and_then(|mut child| {
        if let Some(mut stdin) = child.stdin.take() {
            // a command that does not read its input closes the pipe
            let _ = stdin.write_all(input);
        }
        child.wait_with_output()
    });
    match finished {
        Ok(output) => Ended {
            stdout: output.stdout,
            stderr: String::from_utf8_lossy(&output.stderr).into_owned(),
            status: output.status.code(),
        },
        Err(error) => Ended { stdout: Vec::new(), stderr: error.to_string(), status: None },
    }
}

/// The command of this tree, with the program and library under test.
fn qsplan(place: &Place, arguments: &[&str]) -> Command {
    let mut command = Command::new(place.root.join("planner/qsplan"));
    command.args(arguments).env("QS_PROGRAM", &place.program).env("QS_ARCHIVE", &place.archive);
    command.current_dir(&place.root);
    command
}

fn status(number: u8) -> Option<i32> {
    Some(i32::from(number))
}

fn usage(report: &mut Report, place: &Place) {
    let cases: [&[&str]; 7] = [
        &[],
        &["--explain"],
        &["--line", "a"],
        &["a", "b"],
        &["--svg", "a", "b"],
        &["--what", "-"],
        &["-x"],
    ];
    for arguments in cases {
        let found = ended(&mut qsplan(place, arguments), b"");
        let holds = found.status == status(USAGE) && found.stderr.starts_with("usage: qsplan");
        report.test(
            &format!("qsplan {}: bad usage", arguments.join(" ")),
            holds && found.stdout.is_empty(),
        );
    }
    let found = ended(&mut qsplan(place, &["examples/paths/no-such.path"]), b"");
    let holds = found.status == status(WRONG) && found.stderr.contains("no-such.path cannot be read");
    report.test("qsplan: a file that is not there", holds && found.stdout.is_empty());
    for variable in ["QS_PROGRAM", "QS_ARCHIVE"] {
        let found = ended(qsplan(place, &["-"]).env(variable, "/no/such/file"), b"");
        let holds = found.status == status(FAULT) && found.stderr.contains(variable);
        report.test(&format!("qsplan: {variable} names no file"), holds && found.stdout.is_empty());
    }
}

fn conversions(report: &mut Report, place: &Place) {
    let found = ended(&mut qsplan(place, &["--records", "examples/paths/lowering.path"]), b"");
    let wanted = Ended { stdout: WHOLE_CASE.to_vec(), stderr: String::new(), status: status(GOOD) };
    same(report, "qsplan --records: document 01's whole case", found, wanted);
    let text = "request rate=5 ttl=64 qs_ttl=128 nonce=0x00000000\nrouter ceiling=3 fresh=0x3FFFFFFF\nreceiver ceiling=15\n";
    let found = ended(&mut qsplan(place, &["--text", "-"]), &WHOLE_CASE);
    let wanted = Ended { stdout: text.into(), stderr: String::new(), status: status(GOOD) };
    same(report, "qsplan --text: document 01's whole case, from standard input", found, wanted);
    let found = ended(&mut qsplan(place, &["--text", "-"]), &WHOLE_CASE[..15]);
    let holds = found.status == status(WRONG) && found.stderr.starts_with("standard input: byte 14: ");
    report.test("qsplan --text: cut short", holds && found.stdout.is_empty());
}

fn verdicts(report: &mut Report, place: &Place) {
    let mut elsewhere = qsplan(place, &["silent.path"]);
    let found = ended(elsewhere.current_dir(place.root.join("examples/paths")), b"");
    let wanted = Ended { stdout: b"none 14\n".to_vec(), stderr: String::new(), status: status(GOOD) };
    same(report, "qsplan: from another folder", found, wanted);
    let found = ended(&mut qsplan(place, &["-"]), b"request\nreceiver ceiling=2\n");
    let wanted = Ended { stdout: b"rate 2\n".to_vec(), stderr: String::new(), status: status(GOOD) };
    same(report, "qsplan: from standard input", found, wanted);
    let found = ended(&mut qsplan(place, &["examples/paths/wrong.path"]), b"");
    let why = "examples/paths/wrong.path:11: the ceiling is 20; a ceiling is 0 to 15\n";
    let line = "    router ceiling=20           # 20 Mbit/s\n";
    let wanted =
        Ended { stdout: b"bad 15\n".to_vec(), stderr: format!("{why}{line}"), status: status(WRONG) };
    same(report, "qsplan: a bad path", found, wanted);
    let found = ended(&mut qsplan(place, &["-"]), b"silent\nsolent\n");
    let holds = found.stderr.starts_with("standard input:2: `solent` is no kind of record");
    report.test("qsplan: a text that cannot be read", holds && found.status == status(WRONG));
    let found = ended(&mut qsplan(place, &["--explain", "examples/paths/relay.path"]), b"");
    let wanted = fs::read(place.root.join("examples/paths/relay.explain")).unwrap_or_default();
    same(report, "qsplan --explain", (found.stdout, found.status), (wanted, status(GOOD)));
    let found = ended(&mut qsplan(place, &["--svg", "examples/paths/lost.path"]), b"");
    let holds = crate::tests_hops::balanced(&String::from_utf8_lossy(&found.stdout));
    report.test("qsplan --svg", holds && found.status == status(GOOD));
}

/// A copy of the planner in a tree of its own, with an `rt` that copies what is under test to its places.
fn copy_tree(place: &Place, tree: &Path) -> std::io::Result<()> {
    let _ = fs::remove_dir_all(tree);
    fs::create_dir_all(tree.join("planner"))?;
    fs::create_dir_all(tree.join("stub"))?;
    fs::create_dir_all(tree.join("crates/qspath"))?;
    fs::create_dir_all(tree.join("crates/gateway_c"))?;
    fs::create_dir_all(tree.join("host"))?;
    fs::copy(place.root.join("host/archives"), tree.join("host/archives"))?;
    for entry in fs::read_dir(place.root.join("planner"))? {
        let entry = entry?;
        let name = entry.file_name();
        if name == "qsplan" || name.to_string_lossy().ends_with(".rs") {
            fs::copy(entry.path(), tree.join("planner").join(name))?;
        }
    }
    let (root, program, archive) = (tree.display(), place.program.display(), place.archive.display());
    let body = format!(
        "echo \"$PWD $*\" >>'{root}/stub/log'\necho built\ncase \"${{PWD##*/}} $*\" in\n\
         'qspath run') mkdir -p out; cp '{program}' out/qspath ;;\n\
         'gateway_c lib') mkdir -p out; cp '{archive}' out/libgateway_c.a ;;\n\
         *) exit 1 ;;\nesac\n"
    );
    script(&tree.join("stub/rt"), &body);
    Ok(())
}

fn in_tree(tree: &Path, arguments: &[&str]) -> Command {
    let path = std::env::var("PATH").unwrap_or_default();
    let mut command = Command::new(tree.join("planner/qsplan"));
    command.args(arguments).env("PATH", format!("{}:{path}", tree.join("stub").display()));
    command.env_remove("QS_PROGRAM").env_remove("QS_ARCHIVE");
    command
}

/// A first run, where program, library and tool are missing; then one where all are there.
fn first_run(report: &mut Report, place: &Place) {
    let tree: PathBuf = place.out.join("tree");
    if let Err(error) = copy_tree(place, &tree) {
        println!("  found {error}");
        report.test("qsplan: a tree of its own", false);
        return;
    }
    let input = b"request rate=5\nrouter ceiling=3\nreceiver";
    let found = ended(&mut in_tree(&tree, &["-"]), input);
    let says = |words: &str| found.stderr.contains(words);
    let said = says("crates/qspath/out/qspath is missing: running 'rt run' in crates/qspath")
        && says("target/staticlib/libgateway.a is missing: running 'host/archives gateway'")
        && says("takes some minutes the first time");
    report.test("qsplan, first run: what is missing is said", said);
    same(
        report,
        "qsplan, first run: the line alone",
        (found.stdout, found.status),
        (b"rate 3\n".to_vec(), Some(0)),
    );
    let log = fs::read_to_string(tree.join("stub/log")).unwrap_or_default();
    let root = tree.display();
    let wanted = format!("{root}/crates/qspath run\n{root}/crates/gateway_c lib\n");
    same(report, "qsplan, first run: rt is run in the crates' folders", log, wanted.clone());
    let built =
        || fs::metadata(tree.join("target/planner/qsplan-tool")).and_then(|file| file.modified()).ok();
    let before = built();
    let found = ended(&mut in_tree(&tree, &["-"]), input);
    let quiet = Ended { stdout: b"rate 3\n".to_vec(), stderr: String::new(), status: Some(0) };
    same(report, "qsplan, second run: quiet", found, quiet);
    let log = fs::read_to_string(tree.join("stub/log")).unwrap_or_default();
    report.test("qsplan, second run: nothing is made again", log == wanted && before == built());
    failed_builds(report, place, &tree, input);
}

/// Makes a file older than everything that is built here.
fn make_old(file: &Path) -> std::io::Result<()> {
    fs::File::options().write(true).open(file)?.set_modified(UNIX_EPOCH + Duration::from_secs(86_400))
}

/// With a source that is no Rust, a tool that is built anew shows by failing. Then the program is missing, too.
fn failed_builds(report: &mut Report, place: &Place, tree: &Path, input: &[u8]) {
    let (source, other) = (tree.join("planner/main.rs"), tree.join("other.a"));
    script(&source, "no Rust\n");
    let found = ended(&mut in_tree(tree, &["-"]), input);
    let holds = found.status == status(FAULT) && found.stdout.is_empty();
    report.test("qsplan, a source that is newer: built anew, and its fault is said", holds);
    let made =
        make_old(&source).and_then(|()| fs::copy(&place.archive, &other)).and_then(|_| make_old(&other));
    let found = ended(&mut in_tree(tree, &["-"]), input);
    report.test(
        "qsplan, a source that is older: not built anew",
        made.is_ok() && found.stdout == b"rate 3\n",
    );
    let found = ended(in_tree(tree, &["-"]).env("QS_ARCHIVE", &other), input);
    report.test(
        "qsplan, another library: built anew",
        found.status == status(FAULT) && found.stdout.is_empty(),
    );
    script(&tree.join("stub/rt"), "exit 1\n");
    let _ = fs::remove_file(tree.join("crates/qspath/out/qspath"));
    let found = ended(&mut in_tree(tree, &["-"]), input);
    let holds = found.status == status(FAULT) && found.stderr.contains("'rt run' in crates/qspath failed");
    report.test("qsplan, rt fails: said", holds && found.stdout.is_empty());
}

pub fn all(report: &mut Report, place: &Place) {
    usage(report, place);
    conversions(report, place);
    verdicts(report, place);
    first_run(report, place);
}
