//! The program `page_table` as a process: the 256 numbers that it prints are those of the constant in the library's source and those of the rule for
//! page 15, which the reference has from the request's words. Its path is LIBRETTO_PAGE_TABLE, or else that of the repository's build.

use libretto_tests::programs::{proved_program, repository};
use std::fs;
use std::path::Path;
use std::process::{Command, Stdio};

/// What stands before and behind the constant's numbers in its source.
const OPENING: &str = "PAGE_15: [u8; 256] = [";
const CLOSING: &str = "];";

/// A decimal number of one byte, written as a program prints it: digits alone, and none that could be left out.
fn number(written: &str) -> Result<u8, String> {
    match written.parse::<u8>() {
        Ok(number) if number.to_string() == written => Ok(number),
        _ => Err(format!("\"{}\" is no decimal number from 0 to 255", written.escape_default())),
    }
}

/// The numbers that the program printed: sixteen lines of sixteen, one space between, each line ended by byte 10, and nothing else.
fn printed_numbers(printed: &[u8]) -> Result<Vec<u8>, String> {
    let text = std::str::from_utf8(printed).map_err(|error| error.to_string())?;
    let lines: Vec<&str> = text.strip_suffix('\n').ok_or("the last line is not ended by byte 10")?.split('\n').collect();
    if lines.len() != 16 {
        return Err(format!("{} lines instead of 16", lines.len()));
    }
    let mut numbers = Vec::new();
    for (index, line) in lines.iter().enumerate() {
        let read: Vec<u8> = line.split(' ').map(number).collect::<Result<_, _>>().map_err(|wrong| format!("line {}: {wrong}", index + 1))?;
        if read.len() != 16 {
            return Err(format!("line {}: {} numbers instead of 16", index + 1, read.len()));
        }
        numbers.extend(read);
    }
    Ok(numbers)
}

/// The numbers of the constant in its source, between commas; the last may have one behind it too.
fn constant_numbers(source: &str) -> Result<Vec<u8>, String> {
    let [_, behind] = source.split(OPENING).collect::<Vec<_>>()[..] else {
        return Err(format!("\"{OPENING}\" does not stand there exactly once"));
    };
    let (list, _) = behind.split_once(CLOSING).ok_or(format!("\"{CLOSING}\" does not stand behind it"))?;
    let list = list.trim();
    let numbers: Vec<u8> = list.strip_suffix(',').unwrap_or(list).split(',').map(|written| number(written.trim())).collect::<Result<_, _>>()?;
    match numbers.len() {
        256 => Ok(numbers),
        other => Err(format!("{other} numbers instead of 256")),
    }
}

/// The rule's numbers, letter by letter.
fn rule_numbers() -> Vec<u8> {
    let rule = reference::folding_rule(15).expect("the reference has page 15");
    (0..=255).map(rule).collect()
}

/// Each letter for which the program, the constant and the rule do not have one number, with the three.
fn differences(printed: &[u8], constant: &[u8], rule: &[u8]) -> Vec<String> {
    let differ = |&letter: &usize| printed[letter] != constant[letter] || constant[letter] != rule[letter];
    let told = |letter: usize| {
        format!("letter {letter:#04x}: printed {}, in the constant {}, by the rule {}", printed[letter], constant[letter], rule[letter])
    };
    (0..256).filter(differ).map(told).collect()
}

fn read(path: &Path) -> Vec<u8> {
    fs::read(path).unwrap_or_else(|error| panic!("{}: {error}", path.display()))
}

/// What the program prints. It takes no input, and tells no error.
fn printed() -> Vec<u8> {
    let program = proved_program("page_table", "LIBRETTO_PAGE_TABLE");
    let output = Command::new(program).stdin(Stdio::null()).output().expect("the program starts");
    let errors = String::from_utf8_lossy(&output.stderr);
    assert!(output.status.success() && errors.is_empty(), "the program: {}\n{errors}", output.status);
    output.stdout
}

#[test]
fn program_constant_and_rule() {
    let source = String::from_utf8(read(&repository().join("crates/fold/src/page_15.rt"))).expect("the source is in UTF-8");
    let constant = constant_numbers(&source).unwrap_or_else(|wrong| panic!("crates/fold/src/page_15.rt: {wrong}"));
    let output = printed();
    let numbers = printed_numbers(&output).unwrap_or_else(|wrong| panic!("{wrong}, printed:\n{}", String::from_utf8_lossy(&output)));
    let differences = differences(&numbers, &constant, &rule_numbers());
    assert!(differences.is_empty(), "{}", differences.join("\n"));
}

/// The file that the gate holds the program's output to.
#[test]
fn the_expected_output() {
    let (held, printed) = (read(&repository().join("crates/page_table/stdout")), printed());
    let [held_text, printed_text] = [&held, &printed].map(|bytes| String::from_utf8_lossy(bytes));
    assert!(held == printed, "crates/page_table/stdout has\n{held_text}\nbut the program printed\n{printed_text}");
}

/// What a right program prints.
fn right_print() -> String {
    let line = |row: &[u8]| row.iter().map(u8::to_string).collect::<Vec<_>>().join(" ") + "\n";
    rule_numbers().chunks(16).map(line).collect()
}

/// What a right source has.
fn right_source() -> String {
    let line = |row: &[u8]| row.iter().map(|number| format!("{number}, ")).collect::<String>().trim_end().to_string();
    let rows: Vec<String> = rule_numbers().chunks(16).map(|row| format!("    {}\n", line(row))).collect();
    format!("// The table.\npub const {OPENING}\n{}{CLOSING}\n\npub const OTHER: [u8; 1] = [7];\n", rows.concat())
}

#[test]
fn right_tables_are_read() {
    assert_eq!(printed_numbers(right_print().as_bytes()), Ok(rule_numbers()));
    assert_eq!(constant_numbers(&right_source()), Ok(rule_numbers()));
    assert_eq!(constant_numbers(&right_source().replace(&format!(",\n{CLOSING}"), CLOSING)), Ok(rule_numbers()));
    assert_eq!(differences(&rule_numbers(), &rule_numbers(), &rule_numbers()), [""; 0]);
}

/// One number that is off, in each of the three in turn, is told with its letter and all three numbers.
#[test]
fn wrong_numbers_are_told() {
    let off = |letter: usize| {
        let mut numbers = rule_numbers();
        numbers[letter] ^= 1;
        numbers
    };
    let right = rule_numbers();
    for letter in 0..256 {
        let (due, wrong) = (right[letter], off(letter)[letter]);
        let told = |printed, constant, rule| [format!("letter {letter:#04x}: printed {printed}, in the constant {constant}, by the rule {rule}")];
        assert_eq!(differences(&off(letter), &right, &right), told(wrong, due, due));
        assert_eq!(differences(&right, &off(letter), &right), told(due, wrong, due));
        assert_eq!(differences(&right, &right, &off(letter)), told(due, due, wrong));
        assert_eq!(differences(&off(letter), &off(letter), &right), told(wrong, wrong, due));
    }
    let printed = right_print().replace("168 167 168", "166 167 168");
    let printed = printed_numbers(printed.as_bytes()).expect("the form is right");
    assert_eq!(differences(&printed, &right, &right), ["letter 0xa6: printed 166, in the constant 168, by the rule 168"]);
    let source = constant_numbers(&right_source().replace("189, 189, 255,", "188, 189, 255,")).expect("the form is right");
    assert_eq!(differences(&right, &source, &right), ["letter 0xbc: printed 189, in the constant 188, by the rule 189"]);
}

#[test]
fn wrong_prints_are_refused() {
    let right = right_print();
    let refused = |printed: &str| printed_numbers(printed.as_bytes()).expect_err("the print is wrong");
    let first_line = right.find('\n').expect("there are lines") + 1;
    assert_eq!(refused(&right[first_line..]), "15 lines instead of 16");
    assert_eq!(refused(&[&right, &right[..first_line]].concat()), "17 lines instead of 16");
    assert_eq!(refused(&[&right, "\n"].concat()), "17 lines instead of 16");
    assert_eq!(refused(right.trim_end()), "the last line is not ended by byte 10");
    assert_eq!(refused(""), "the last line is not ended by byte 10");
    assert_eq!(refused(&right.replace(" 15\n", "\n")), "line 1: 15 numbers instead of 16");
    assert_eq!(refused(&right.replace(" 15\n16 ", " 15 16\n")), "line 1: 17 numbers instead of 16");
    assert_eq!(refused(&right.replace(" 3 ", "  3 ")), "line 1: \"\" is no decimal number from 0 to 255");
    assert_eq!(refused(&right.replace(" 15\n", " 15 \n")), "line 1: \"\" is no decimal number from 0 to 255");
    assert_eq!(refused(&right.replace(" 3 ", " 03 ")), "line 1: \"03\" is no decimal number from 0 to 255");
    assert_eq!(refused(&right.replace(" 3 ", " +3 ")), "line 1: \"+3\" is no decimal number from 0 to 255");
    assert_eq!(refused(&right.replace(" 3 ", " 256 ")), "line 1: \"256\" is no decimal number from 0 to 255");
    assert_eq!(refused(&right.replace('\n', "\r\n")), "line 1: \"15\\r\" is no decimal number from 0 to 255");
}

#[test]
fn wrong_sources_are_refused() {
    let right = right_source();
    let refused = |source: &str| constant_numbers(source).expect_err("the source is wrong");
    assert_eq!(refused(&right.replace(" 7,", "")), "255 numbers instead of 256");
    assert_eq!(refused(&right.replace(" 7,", " 7, 7,")), "257 numbers instead of 256");
    assert_eq!(refused(&right.replace(" 7,", " 0x7,")), "\"0x7\" is no decimal number from 0 to 255");
    assert_eq!(refused(&right.replace(" 7,", " 7,,")), "\"\" is no decimal number from 0 to 255");
    assert_eq!(refused(&right.replace("PAGE_15", "PAGE_1")), "\"PAGE_15: [u8; 256] = [\" does not stand there exactly once");
    assert_eq!(refused(&[&right[..], &right].concat()), "\"PAGE_15: [u8; 256] = [\" does not stand there exactly once");
    assert_eq!(refused(&right.replace(CLOSING, "")), "\"];\" does not stand behind it");
}
