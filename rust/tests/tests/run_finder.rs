//! The script `run-finder`, through links and from other folders: in the repository, where the finder is proved and built, and in a small copy of it
//! where another program stands in for the prover, so that builds may fail and take long without a proof.

use libretto_tests::programs::repository;
use std::env;
use std::ffi::OsString;
use std::fs;
use std::io::Write;
use std::os::unix::fs::{symlink, PermissionsExt};
use std::path::{Path, PathBuf};
use std::process::{Command, Output, Stdio};
use std::sync::Mutex;

const WAITING: &str = "run-finder: waiting for 'rt run' in crates/finder, which proves and builds what has changed; all of it takes about two minutes\n";
const NOT_RUN: &str = "run-finder: 'rt run' in crates/finder did not leave a checked finder, so none is run\n";

/// A new folder of a test's own.
fn folder(test: &str) -> PathBuf {
    let folder = Path::new(env!("CARGO_TARGET_TMPDIR")).join(format!("run finder {test}"));
    if folder.exists() {
        fs::remove_dir_all(&folder).expect("the folder of an earlier run is removed");
    }
    fs::create_dir_all(&folder).expect("the folder is made");
    folder
}

/// A process that is started while a program is written has the program open for writing until it runs a program itself, and until then Linux runs
/// the written one for nobody. So no process is started while a program is written.
static WRITING: Mutex<()> = Mutex::new(());

fn write_program(path: &Path, text: &str) {
    let _none_starts = WRITING.lock();
    fs::create_dir_all(path.parent().expect("the program has a folder")).expect("the folder is made");
    fs::write(path, text).expect("the program is written");
    fs::set_permissions(path, fs::Permissions::from_mode(0o755)).expect("the program may be run");
}

/// Runs the script from a folder, with this standard input and, if given, a folder before all others on the path.
fn run(script: &Path, from: &Path, input: &[u8], first_on_path: Option<&Path>) -> Output {
    let mut path: Vec<PathBuf> = first_on_path.map(PathBuf::from).into_iter().collect();
    path.extend(env::split_paths(&env::var_os("PATH").unwrap_or_default()));
    let path: OsString = env::join_paths(path).expect("the path is joined");
    let mut command = Command::new(script);
    let command = command.current_dir(from).env("PATH", path).stdin(Stdio::piped()).stdout(Stdio::piped()).stderr(Stdio::piped());
    let started = {
        let _none_is_written = WRITING.lock();
        command.spawn()
    };
    let mut child = started.expect("the script starts");
    child.stdin.take().expect("the pipe").write_all(input).expect("the input is short enough to wait in the pipe");
    child.wait_with_output().expect("the script ends")
}

#[track_caller]
fn is(output: &Output, status: i32, out: &str, errors: &str) {
    let [left_out, left_errors] = [&output.stdout, &output.stderr].map(|bytes| String::from_utf8_lossy(bytes));
    assert_eq!((output.status.code(), &*left_out, &*left_errors), (Some(status), out, errors));
}

#[test]
fn in_the_repository() {
    let links = folder("links");
    let script = repository().join("run-finder").canonicalize().expect("the script is there");
    symlink(&script, links.join("first")).expect("the link is made");
    symlink("first", links.join("second")).expect("the link is made");
    let input = b"aba\nababa";
    let due = String::from_utf8(reference::finder_output(input)).expect("the lines are ASCII");
    for (script, from) in [(&script, Path::new("/")), (&links.join("second"), &links), (&script, &repository())] {
        let output = run(script, from, input, None);
        assert_eq!((output.status.code(), String::from_utf8_lossy(&output.stdout)), (Some(0), due.as_str().into()), "{output:?}");
    }
}

/// A copy of the script beside an `rt` of the test's own, and the folder of that `rt`.
fn copy(test: &str, rt: &str) -> (PathBuf, PathBuf) {
    let root = folder(test);
    let script = fs::read_to_string(repository().join("run-finder")).expect("the script is read");
    write_program(&root.join("run-finder"), &script);
    fs::write(root.join("crates.txt"), "finder:\n").expect("the list is written");
    fs::create_dir_all(root.join("crates/finder")).expect("the folder is made");
    write_program(&root.join("bin/rt"), &format!("#!/bin/sh\nset -e\n[ \"$*\" = run ] && [ -f ../../crates.txt ] && [ \"$(basename \"$PWD\")\" = finder ]\n{rt}\n"));
    let bin = root.join("bin");
    (root.join("run-finder"), bin)
}

/// A build whose finder prints a word and its standard input. It reads its own standard input, of which there must be nothing.
const BUILD: &str =
    "cat\necho proved\necho warned >&2\nmkdir -p out\nprintf '#!/bin/sh\\necho NEW\\nexec cat\\n' > out/finder\nchmod 755 out/finder";

#[test]
fn builds_and_runs() {
    let (script, bin) = copy("builds", BUILD);
    let old = script.with_file_name("crates/finder/out/finder");
    is(&run(&script, Path::new("/"), b"la\n\0la", Some(&bin)), 0, "NEW\nla\n\0la", "");
    write_program(&old, "#!/bin/sh\necho OLD\n");
    is(&run(&script, &bin, b"la", Some(&bin)), 0, "NEW\nla", "");
}

#[test]
fn runs_nothing_after_a_failure() {
    let (script, bin) = copy("failure", "echo broken\nexit 3");
    write_program(&script.with_file_name("crates/finder/out/finder"), "#!/bin/sh\necho OLD\n");
    is(&run(&script, Path::new("/"), b"la", Some(&bin)), 3, "", &format!("broken\n{NOT_RUN}"));

    let (script, bin) = copy("nothing", "echo proved");
    is(&run(&script, Path::new("/"), b"la", Some(&bin)), 1, "", &format!("proved\n{NOT_RUN}"));
}

#[test]
fn tells_what_it_waits_for() {
    let (script, bin) = copy("waits", &format!("sleep 4\n{BUILD}"));
    is(&run(&script, Path::new("/"), b"la", Some(&bin)), 0, "NEW\nla", WAITING);
}
