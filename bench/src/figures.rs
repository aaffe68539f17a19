//! The time and the instructions of one call.

use crate::texts::Measured;
use crate::work::{repeat, Program, Task, PROGRAMS};
use std::process::Command;
use std::time::{Duration, Instant};

/// A round takes at least this long; the best of the rounds counts.
const ROUND: Duration = Duration::from_millis(2);
const ROUNDS: usize = 150;

/// The time of a call, of each program; their rounds take turns, so that a busy machine is as busy for both.
pub fn nanoseconds(task: Task, on: &Measured) -> [f64; 2] {
    let round = |program, times: usize| {
        let start = Instant::now();
        repeat(program, task, on, times);
        start.elapsed()
    };
    let times = PROGRAMS.map(|program| {
        let mut times = 1;
        while round(program, times) < ROUND {
            times *= 2;
        }
        times
    });
    let mut best = [Duration::MAX; 2];
    for _ in 0..ROUNDS {
        for (at, program) in PROGRAMS.into_iter().enumerate() {
            best[at] = best[at].min(round(program, times[at]));
        }
    }
    [0, 1].map(|at| best[at].as_nanos() as f64 / times[at] as f64)
}

/// The instructions of a call, of each program.
pub fn instructions(task: Task, on: &Measured) -> [f64; 2] {
    PROGRAMS.map(|program| instructions_of(program, task, on))
}

/// Those of a call in plain C, where it does the task.
pub fn instructions_plain(task: Task, on: &Measured) -> Option<f64> {
    task.is_in_plain_c().then(|| instructions_of(Program::PlainC, task, on))
}

/// What twice as many calls take more, so that the start of the program is not counted.
fn instructions_of(program: Program, task: Task, on: &Measured) -> f64 {
    let times = 2_000_000 / (on.text.len() * 10);
    let once = under_valgrind(program, task, on, times);
    let twice = under_valgrind(program, task, on, 2 * times);
    (twice - once) as f64 / times as f64
}

/// The instructions of a whole run of this program that does the task so many times.
fn under_valgrind(program: Program, task: Task, on: &Measured, times: usize) -> u64 {
    let this = std::env::current_exe().expect("this program's path");
    let words = ["count", &format!("{program:?}"), &format!("{task:?}"), on.name, &times.to_string()];
    callgrind(|command| command.arg(this).args(words)).0
}

/// The instructions that callgrind collects in a run, and what the run prints.
pub fn callgrind(add: impl FnOnce(&mut Command) -> &mut Command) -> (u64, Vec<u8>) {
    let counts = std::env::current_exe().expect("this program's path").with_file_name("callgrind.out");
    let mut command = Command::new("valgrind");
    command.arg("--tool=callgrind").arg(format!("--callgrind-out-file={}", counts.display()));
    let output = add(&mut command).output().expect("valgrind runs");
    let said = String::from_utf8_lossy(&output.stderr);
    assert!(output.status.success(), "valgrind: {said}");
    let collected = said.lines().find_map(|line| line.split("Collected : ").nth(1));
    let count = collected.and_then(|count| count.trim().parse().ok());
    (count.expect("valgrind says what it collected"), output.stdout)
}

/// `count PROGRAM TASK TEXT TIMES`: does the task so many times and nothing else.
pub fn count_one(words: &[String], measured: &[Measured]) {
    let [_, program, task, text, times] = words else {
        panic!("usage: bench [count PROGRAM TASK TEXT TIMES]");
    };
    let programs = [Program::Library, Program::Reference, Program::PlainC];
    let program = programs.into_iter().find(|one| format!("{one:?}") == *program).expect("a program");
    let on = measured.iter().find(|one| one.name == text).expect("a text");
    let task = on.tasks.iter().find(|one| format!("{one:?}") == *task).expect("a task on it");
    repeat(program, *task, on, times.parse().expect("how many times"));
}
