//! The finder program as a process: what it prints is compared with the reference. Its path is LIBRETTO_FINDER, or else that of the repository's build.

use libretto_tests::programs::proved_program;
use libretto_tests::Random;
use std::fs::{self, File};
use std::io::{ErrorKind, Write};
use std::path::Path;
use std::process::{Command, Output, Stdio};
use std::thread;
use std::time::Duration;

/// Runs the finder with this standard input.
fn run(input: Stdio, feed: impl FnOnce(Option<std::process::ChildStdin>) + Send) -> Output {
    let mut child = Command::new(proved_program("finder", "LIBRETTO_FINDER"))
        .stdin(input)
        .stdout(Stdio::piped())
        .stderr(Stdio::piped())
        .spawn()
        .expect("the finder starts");
    let stdin = child.stdin.take();
    // Fed from a thread of its own, so that neither side waits for the other.
    thread::scope(|scope| {
        scope.spawn(|| feed(stdin));
        child.wait_with_output().expect("the finder ends")
    })
}

/// Writes through a pipe in pieces of this many bytes.
fn run_in_pieces(input: &[u8], piece: usize) -> Output {
    run(Stdio::piped(), |stdin| {
        let mut stdin = stdin.expect("the pipe");
        for (count, part) in input.chunks(piece).enumerate() {
            match stdin.write_all(part).and_then(|()| stdin.flush()) {
                Ok(()) => {}
                // The program may stop reading once the input is known to be too long.
                Err(error) if error.kind() == ErrorKind::BrokenPipe && input.len() > 33_793 => return,
                Err(error) => panic!("the finder stopped reading an input of {} bytes: {error}", input.len()),
            }
            if count < 20 && piece < input.len() {
                thread::sleep(Duration::from_micros(300));
            }
        }
    })
}

/// What to print of a long input or output.
fn shown(bytes: &[u8]) -> String {
    let front = &bytes[..bytes.len().min(400)];
    format!("{} bytes: \"{}\"{}", bytes.len(), front.escape_ascii(), if front.len() < bytes.len() { "..." } else { "" })
}

fn check(name: &str, how: &str, input: &[u8], output: &Output) {
    let expected = reference::finder_output(input);
    assert!(
        output.stdout == expected,
        "{name}, {how}\ninput of {}\nprinted {}\nexpected {}\nerrors {}",
        shown(input),
        shown(&output.stdout),
        shown(&expected),
        shown(&output.stderr)
    );
    assert!(output.status.code().is_some(), "{name}, {how}: ended by a signal, {}", output.status);
}

/// In one write, in pieces, and from a file.
fn check_all_ways(name: &str, input: &[u8]) {
    check(name, "in one write", input, &run_in_pieces(input, input.len().max(1)));
    for piece in [if input.len() < 100 { 1 } else { 97 }, 1000, 4096] {
        if piece < input.len() {
            check(name, &format!("in pieces of {piece}"), input, &run_in_pieces(input, piece));
        }
    }
    let path = Path::new(env!("CARGO_TARGET_TMPDIR")).join(format!("finder-{}.input", name.replace(|c: char| !c.is_ascii_alphanumeric(), "-")));
    fs::write(&path, input).expect("the input file is written");
    check(name, "from a file", input, &run(Stdio::from(File::open(&path).expect("the input file opens")), drop));
    fs::remove_file(&path).expect("the input file is removed");
}

/// Phrase, byte 10, text.
fn joined(phrase: &[u8], text: &[u8]) -> Vec<u8> {
    [phrase, b"\n", text].concat()
}

/// The five lines of document 01's example, and the one that document 02, (v), adds.
const LINES: &str = "naive 2 7 0 2\nkmp 2 5 0 2\nhorspool 2 6 0 2\nsunday 2 6 0 2\nfjs 2 5 0 2\nbm 2 6 0 2\ndouble 2 4 0 2\nimproved 2 6 0 2\n";

#[test]
fn the_document_example() {
    let output = run_in_pieces(b"aba\nababa", 100);
    assert_eq!(String::from_utf8_lossy(&output.stdout), LINES);
    check_all_ways("the example", b"aba\nababa");
}

#[test]
fn empty_inputs() {
    check_all_ways("empty", b"");
    check("empty", "from the null device", b"", &run(Stdio::from(File::open("/dev/null").expect("the null device opens")), drop));
    check_all_ways("only byte 10", b"\n");
    check_all_ways("two bytes 10", b"\n\n");
    check_all_ways("no phrase", b"\nababa");
    check_all_ways("no text", b"aba\n");
    check_all_ways("no byte 10", b"ababa");
    check_all_ways("one letter", b"a");
}

#[test]
fn limits() {
    let mut random = Random::new(20);
    let letters = random.word(3, 40_000);
    let a = vec![b'a'; 40_000];
    for (kind, letters) in [("mixed", &letters), ("a", &a)] {
        for m in [1, 1023, 1024, 1025, 1026] {
            check_all_ways(&format!("{kind} phrase of {m} alone"), &letters[..m]);
            check_all_ways(&format!("{kind} phrase of {m}"), &joined(&letters[..m], &letters[..3000]));
        }
        for n in [32_767, 32_768, 32_769] {
            check_all_ways(&format!("{kind} text of {n}"), &joined(&letters[..2], &letters[..n]));
        }
        // 33,793 bytes are the longest phrase, byte 10 and the longest text.
        for n in [32_767, 32_768, 32_769] {
            check_all_ways(&format!("{kind} 1024 and {n}"), &joined(&letters[..1024], &letters[..n]));
        }
        for total in [33_792, 33_793, 33_794, 40_000] {
            check_all_ways(&format!("{kind} {total} without byte 10"), &letters[..total]);
            check_all_ways(&format!("{kind} {total} with byte 10 in front"), &joined(b"", &letters[..total - 1]));
            check_all_ways(&format!("{kind} {total} with byte 10 at the end"), &joined(&letters[..total - 1], b""));
            check_all_ways(&format!("{kind} {total} with a phrase"), &joined(&letters[..5], &letters[..total - 6]));
            check_all_ways(&format!("{kind} {total} with a long phrase"), &joined(&letters[..1025], &letters[..total - 1026]));
        }
    }
    let million = vec![b'a'; 1_000_000];
    check("a million", "in one write", &million, &run_in_pieces(&million, million.len()));
}

#[test]
fn long_lists() {
    for n in [4095, 4096, 4097, 5000, 32_768] {
        check_all_ways(&format!("a in {n}"), &joined(b"a", &vec![b'a'; n]));
    }
    check_all_ways("aa in 4097", &joined(b"aa", &[b'a'; 4097]));
    check_all_ways("aa in 4098", &joined(b"aa", &[b'a'; 4098]));
}

#[test]
fn all_kinds_of_bytes() {
    let all: Vec<u8> = (0..=255).collect();
    check_all_ways("high bytes", &joined(&[0xff, 0xfe], &[0xff, 0xff, 0xfe, 0x80, 0xff, 0xfe]));
    check_all_ways("bytes 0 and 10 in the text", &joined(b"a\0", b"a\0\n\na\0a\0\0\n\0a\0"));
    check_all_ways("phrase of bytes 0", &joined(&[0, 0], &[0, 0, 0, 10, 0, 0]));
    check_all_ways("carriage returns", b"ab\r\nab\r\nab\r\n");
    check_all_ways("every byte", &joined(&all[11..], &[&all[..], &all[..]].concat()));
    check_all_ways("byte 26 and byte 4", &joined(&[26, 4], &[26, 4, 26, 4, 4]));
}

#[test]
fn random_inputs() {
    let mut random = Random::new(21);
    for round in 0..60 {
        let letters = [1, 2, 4, 26, 256][round % 5];
        let n = random.between(0, [10, 100, 1000, 6000][round % 4]);
        let text = random.word(letters, n);
        let m = random.between(1, 8).min(n.max(1));
        let phrase = if n >= m && round % 3 != 0 {
            let start = random.between(0, n - m);
            text[start..start + m].to_vec()
        } else {
            random.word(letters, m)
        };
        check_all_ways(&format!("random {round}"), &joined(&phrase, &text));
    }
    for round in 0..20 {
        let length = random.between(0, 34_500);
        let input = random.word(256, length);
        check_all_ways(&format!("bytes {round}"), &input);
    }
}
