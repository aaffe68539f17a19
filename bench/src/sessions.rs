//! The instructions of a session's calls. The library's are counted in the replay program while it makes the call of a line, less what the same
//! line takes there when no session is open: reading a script and printing answers are not counted, but what the program does to lend buffers
//! and to keep the session is. The second program and plain C make the same calls in this process.

use crate::calls::{buffers_line, Call, Within};
use crate::figures::callgrind;
use crate::rows::{rows, Aim, Row};
use reference::replay;
use std::fs::{self, File};
use std::hint::black_box;

/// The replay program and functions of it: `MAKE_CALL` makes the call of a line; those of `FIND_WORD` tell a script's words, within it too.
const REPLAY: &str = "crates/replay/out/replay";
const MAKE_CALL: &str = "replay::turns::make_call";
const FIND_WORD: [&str; 7] = [
    "script::calls::choose_call",
    "script::choices::choose_end",
    "script::choices::choose_screen",
    "script::choices::choose_kind",
    "script::choices::choose_command",
    "script::choices::choose_command_two",
    "script::choices::choose_reply",
];

/// What the plugin end does with a chunk.
const RECEIVE: &str = "plugin_receiving::phases::receive";

/// The C library copies and clears by loops of vector instructions at any length, since callgrind counts a string instruction once for each
/// byte; and its functions are found before the program starts.
const SETTINGS: [(&str, &str); 2] = [
    (
        "GLIBC_TUNABLES",
        "glibc.cpu.x86_rep_movsb_threshold=1000000000:glibc.cpu.x86_rep_stosb_threshold=1000000000",
    ),
    ("LD_BIND_NOW", "1"),
];

/// Prints a line for each row.
pub fn report() {
    let program = fs::read(REPLAY).expect("the replay program");
    for name in [&[MAKE_CALL, RECEIVE], &FIND_WORD[..]].concat() {
        assert!(program.windows(name.len()).any(|part| part == name.as_bytes()), "{REPLAY} has {name}");
    }
    println!("Instructions of a session's call; of several calls one behind the other, the mean. The library's are counted in the replay program");
    println!("while it makes a line's call, less the same line with no session open; the others make the same calls in this program.");
    println!(
        "{:<58} {:>5} {:>8} {:>8} {:>6} {:>8} {:>6}",
        "call", "times", "library", "second", "ratio", "plain C", "ratio"
    );
    let mut row_before = 0.0;
    for (number, row) in rows().iter().enumerate() {
        let library = library(row);
        let second = within(Within::Second, number, row);
        print!("{:<58} {:>5} {library:>8.0} {second:>8.0} {:>6.2}", row.name, row.times, library / second);
        let mut plain_c = None;
        if row.plain {
            assert_eq!(Within::PlainC.make(&row.calls), Within::Second.make(&row.calls), "{}", row.name);
            let plain = within(Within::PlainC, number, row);
            print!(" {plain:>8.0} {:>6.2}", library / plain);
            plain_c = Some(plain);
        } else {
            print!(" {:>8} {:>6}", "", "");
        }
        let said = |met| if met { "met" } else { "NOT met" };
        match row.aim {
            Some(Aim::AtMost(most)) => println!("  aim: at most {most}, {}", said(library <= most)),
            Some(Aim::BelowSecond) => println!("  aim: ratio below 1, {}", said(library < second)),
            Some(Aim::TimesBefore(most)) => {
                let times = library / row_before;
                println!("  {times:.1} times the row before, aim: at most {most}, {}", said(times <= most));
            }
            Some(Aim::TimesPlainC(most)) => {
                let times = library / plain_c.expect("plain C has these calls");
                println!("  aim: at most {most} times plain C, {}", said(times <= most));
            }
            None => println!(),
        }
        row_before = library;
    }
}

/// `calls PROGRAM ROW COUNT`: makes the row's first calls and nothing else.
pub fn make_calls(words: &[String]) {
    let [_, program, number, count] = words else {
        panic!("usage: bench [calls PROGRAM ROW COUNT]");
    };
    let programs = [Within::Second, Within::PlainC];
    let program = programs.into_iter().find(|one| format!("{one:?}") == *program).expect("a program");
    let row = rows().swap_remove(number.parse().expect("a row's number"));
    black_box(program.make(&row.calls[..count.parse().expect("how many calls")]));
}

/// The instructions of a row's calls in this program.
fn within(program: Within, number: usize, row: &Row) -> f64 {
    let this = std::env::current_exe().expect("this program's path");
    let run = |count: usize| {
        let words = ["calls".to_owned(), format!("{program:?}"), number.to_string(), format!("{count:03}")];
        callgrind(|command| command.arg(&this).args(words).envs(SETTINGS)).0
    };
    (run(row.calls.len()) - run(row.before)) as f64 / row.times as f64
}

/// The instructions of a row's calls in the library.
fn library(row: &Row) -> f64 {
    let lines = |calls: &[Call]| calls.iter().map(Call::line).collect::<String>();
    let (before, measured) = row.calls.split_at(row.before);
    if row.alone {
        return more(&[RECEIVE], "#\n".to_owned() + &lines(before), &lines(measured), "ok") as f64 / row.times as f64;
    }
    let functions = [&[MAKE_CALL], &FIND_WORD[..]].concat();
    let with = more(&functions, "#\n".to_owned() + &lines(before), &lines(measured), "ok");
    let without = match measured[0] {
        Call::Open { .. } => more(&functions, lines(measured), &buffers_line(), "ok"),
        _ => more(&functions, "#\n".to_owned(), &lines(measured), "none"),
    };
    (with as f64 - without as f64) / row.times as f64
}

/// What some lines take behind others in these functions, each of them answered so.
fn more(functions: &[&str], before: String, lines: &str, answer: &str) -> u64 {
    let (least, _) = answered(functions, &before);
    let (all, answers) = answered(functions, &(before + lines));
    let count = lines.lines().count();
    assert!(answers.lines().rev().take(count).all(|given| given.starts_with(answer)), "{answers}");
    all - least
}

/// The instructions of the calls of a script in these functions, and its answers, which are the second program's.
fn answered(functions: &[&str], script: &str) -> (u64, String) {
    let file = std::env::current_exe().expect("this program's path").with_file_name("script");
    fs::write(&file, script).expect("the script is written");
    let input = File::open(&file).expect("the script is there");
    let toggles = functions.iter().map(|name| format!("--toggle-collect={name}"));
    let (count, answers) = callgrind(|command| command.args(toggles).arg(REPLAY).envs(SETTINGS).stdin(input));
    let mut expected = Vec::new();
    replay::run(script.as_bytes(), &mut expected).expect("a script is answered");
    assert!(answers == expected, "the answers to {}", file.display());
    (count, String::from_utf8(answers).expect("answers are ASCII"))
}
