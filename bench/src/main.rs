//! The library beside the second program and plain C: the same results, then times and instruction counts. `bench/run` builds and runs it.
//!
//! `bench count PROGRAM TASK TEXT TIMES` and `bench calls PROGRAM ROW COUNT` are what it runs under valgrind.

mod agreement;
mod calls;
mod figures;
mod library;
mod plain;
mod rows;
mod sessions;
mod texts;
mod work;

use reference::bech32::Kind;
use texts::Measured;
use work::Task;

/// Figures of other programs, for orientation.
struct Beside {
    task: Task,
    text: &'static str,
    /// None where it is measured in this run.
    plain_c: Option<f64>,
    age_in_go: f64,
    /// At most so many times plain C.
    aim: f64,
}

/// From the issues, instructions.
const BESIDE: [Beside; 3] = [
    Beside { task: Task::ReadAndDecode, text: "small", plain_c: Some(930.0), age_in_go: 6_100.0, aim: 2.0 },
    Beside { task: Task::ReadAndDecode, text: "4k", plain_c: Some(15_000.0), age_in_go: 275_000.0, aim: 2.0 },
    Beside {
        task: Task::ReadText(Kind::Recipient),
        text: "recipient-33",
        plain_c: None,
        age_in_go: 18_500.0,
        aim: TIMES_PLAIN_C,
    },
];

/// Recipients and identities are read and written in at most so many times plain C.
const TIMES_PLAIN_C: f64 = 2.0;

/// An identity file is read and written in at most so many times what reading its identities takes.
const TIMES_READERS: f64 = 1.2;

fn main() {
    let words: Vec<String> = std::env::args().skip(1).collect();
    let measured = texts::measured();
    if words.is_empty() {
        report(&measured);
        println!();
        sessions::report();
    } else if words[0] == "calls" {
        sessions::make_calls(&words);
    } else {
        figures::count_one(&words, &measured);
    }
}

fn report(measured: &[Measured]) {
    println!("{} calls of the library and of the second program gave the same results.", agreement::check());
    println!("Output buffers were NOT cleared between calls: each is made once, and each call writes over the last.");
    println!("Times are the best of many rounds. Instructions are callgrind's and include the calling loop, 12 to 26 a turn.");
    println!();
    println!(
        "{:<13} {:<15} {:>10} {:>10} {:>6}   {:>12} {:>12} {:>6} {:>12} {:>6}",
        "text", "task", "library", "second", "ratio", "library", "second", "ratio", "plain C", "ratio"
    );
    let mut counted = Vec::new();
    for on in measured {
        for &task in &on.tasks {
            let times = figures::nanoseconds(task, on);
            let counts = figures::instructions(task, on);
            let plain = figures::instructions_plain(task, on);
            print!(
                "{:<13} {:<15} {:>7.0} ns {:>7.0} ns {:>6.2}   {:>7.0} ins. {:>7.0} ins. {:>6.2}",
                on.name,
                task.name(),
                times[0],
                times[1],
                times[0] / times[1],
                counts[0],
                counts[1],
                counts[0] / counts[1],
            );
            match plain {
                Some(plain) => {
                    let ratio = counts[0] / plain;
                    let said = if ratio <= TIMES_PLAIN_C { "met" } else { "NOT met" };
                    println!(" {plain:>7.0} ins. {ratio:>6.2}  aim: at most {TIMES_PLAIN_C}, {said}");
                }
                None => println!(),
            }
            counted.push((task, on.name, counts[0], plain));
        }
    }
    println!();
    let of = |text: &str| counted.iter().find(|one| one.1 == text).expect("a figure of it").2;
    let ratio = of("identity-file") / (64.0 * of("identity-623"));
    let said = if ratio <= TIMES_READERS { "met" } else { "NOT met" };
    println!("An identity file of 64 identities takes {ratio:.2} times what reading each takes (aim: at most {TIMES_READERS}, {said}).");
    println!();
    println!("Instructions beside the figures of the issues:");
    for Beside { task, text, plain_c, age_in_go, aim } in BESIDE {
        let is_this = |one: &&(Task, &str, f64, Option<f64>)| (one.0, one.1) == (task, text);
        let (_, _, ours, plain) = *counted.iter().find(is_this).expect("a figure of it");
        let plain_c = plain_c.or(plain).expect("a figure of plain C");
        println!(
            "{text:<13} {:<15} library {ours:>6.0}; plain C {plain_c:>6.0}, ratio {:.2} (aim: at most {aim}); age's Go code {age_in_go:>6.0}, ratio {:.2}",
            task.name(),
            ours / plain_c,
            ours / age_in_go,
        );
    }
}
