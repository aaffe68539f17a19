//! What is measured, each as a loop of so many calls. The output buffer is made once, and no call clears it.

use crate::library::{self, Name, Parts};
use crate::plain;
use crate::texts::{Measured, ARGUMENTS, FILE_OUTPUT, LIMIT};
use reference::bech32::{self, Kind};
use reference::identity_file;
use reference::stanza;
use std::hint::black_box;

#[derive(Clone, Copy, Debug, PartialEq, Eq)]
pub enum Program {
    Library,
    Reference,
    /// Recipients and identities alone.
    PlainC,
}

/// The two that do every task.
pub const PROGRAMS: [Program; 2] = [Program::Library, Program::Reference];

#[derive(Clone, Copy, Debug, PartialEq, Eq)]
pub enum Task {
    Read,
    Decode,
    ReadAndDecode,
    Write,
    /// Of a recipient or an identity: the name and the payload.
    ReadText(Kind),
    WriteText(Kind),
    /// Of an identity file: its identities as commands.
    ReadFile,
}

/// The tasks on a stanza.
pub const STANZA_TASKS: [Task; 4] = [Task::Read, Task::Decode, Task::ReadAndDecode, Task::Write];

impl Task {
    pub fn name(self) -> &'static str {
        match self {
            Task::Read | Task::ReadText(_) | Task::ReadFile => "read",
            Task::Decode => "decode the body",
            Task::ReadAndDecode => "read and decode",
            Task::Write | Task::WriteText(_) => "write",
        }
    }

    /// Whether plain C does it.
    pub fn is_in_plain_c(self) -> bool {
        matches!(self, Task::ReadText(_) | Task::WriteText(_))
    }
}

/// Does the task so many times.
pub fn repeat(program: Program, task: Task, on: &Measured, times: usize) {
    match program {
        Program::Library => repeat_library(task, on, times),
        Program::Reference => repeat_reference(task, on, times),
        Program::PlainC => repeat_plain_c(task, on, times),
    }
}

fn repeat_library(task: Task, on: &Measured, times: usize) {
    let out = &mut [0; LIMIT];
    let mut parts = Parts { line: 0, body: 0, taken: 0 };
    let mut name = Name { bytes: [0; 32], length: 0 };
    let mut length = 0;
    match task {
        Task::Read => {
            for _ in 0..times {
                black_box(library::read(black_box(&on.text), &mut parts));
                black_box(&mut parts);
            }
        }
        Task::Decode => {
            library::read(&on.text, &mut parts);
            for _ in 0..times {
                black_box(library::body(black_box(&on.text), parts.line, parts.taken, out, &mut length));
                black_box(&mut *out);
            }
        }
        Task::ReadAndDecode => {
            for _ in 0..times {
                let text = black_box(&on.text);
                if library::read(text, &mut parts) == 0 {
                    black_box(library::body(text, parts.line, parts.taken, out, &mut length));
                }
                black_box(&mut *out);
            }
        }
        Task::Write => {
            for _ in 0..times {
                black_box(library::write(black_box(ARGUMENTS), black_box(&on.content), out, &mut length));
                black_box(&mut *out);
            }
        }
        Task::ReadText(kind) => {
            for _ in 0..times {
                black_box(library::read_text(kind, black_box(&on.text), &mut name, out, &mut length));
                black_box((&mut name, &mut *out));
            }
        }
        Task::WriteText(kind) => {
            for _ in 0..times {
                let (name, payload) = black_box((on.plugin, &on.content));
                black_box(library::write_text(kind, name, payload, out, &mut length));
                black_box(&mut *out);
            }
        }
        Task::ReadFile => {
            let mut faults = [[0; 2]; 64];
            let out = &mut vec![0; FILE_OUTPUT];
            for _ in 0..times {
                assert_eq!(library::read_file(black_box(&on.text), &mut faults, out, &mut length), 0);
                black_box(&mut *out);
            }
        }
    }
}

fn repeat_reference(task: Task, on: &Measured, times: usize) {
    let out = &mut [0; LIMIT];
    match task {
        Task::Read => {
            for _ in 0..times {
                let _ = black_box(stanza::read(black_box(&on.text)));
            }
        }
        Task::Decode => {
            let read = stanza::read(&on.text).expect("a stanza");
            for _ in 0..times {
                let _ = black_box(black_box(&read).decode_body(out));
                black_box(&mut *out);
            }
        }
        Task::ReadAndDecode => {
            for _ in 0..times {
                if let Ok(read) = stanza::read(black_box(&on.text)) {
                    let _ = black_box(read.decode_body(out));
                }
                black_box(&mut *out);
            }
        }
        Task::Write => {
            for _ in 0..times {
                let _ = black_box(stanza::write(black_box(ARGUMENTS), black_box(&on.content), out));
                black_box(&mut *out);
            }
        }
        Task::ReadText(kind) => {
            for _ in 0..times {
                let _ = black_box(bech32::read(kind, black_box(&on.text), out));
                black_box(&mut *out);
            }
        }
        Task::WriteText(kind) => {
            for _ in 0..times {
                let (name, payload) = black_box((on.plugin, &on.content));
                let _ = black_box(bech32::write(kind, name, payload, out));
                black_box(&mut *out);
            }
        }
        Task::ReadFile => {
            let out = &mut vec![0; FILE_OUTPUT];
            for _ in 0..times {
                let _ = black_box(identity_file::read(black_box(&on.text), out));
                black_box(&mut *out);
            }
        }
    }
}

fn repeat_plain_c(task: Task, on: &Measured, times: usize) {
    plain::make_tables();
    let out = &mut [0; LIMIT];
    let mut name = Name { bytes: [0; 32], length: 0 };
    match task {
        Task::ReadText(kind) => {
            for _ in 0..times {
                black_box(plain::read_text(kind, black_box(&on.text), &mut name, out));
                black_box((&mut name, &mut *out));
            }
        }
        Task::WriteText(kind) => {
            for _ in 0..times {
                let (name, payload) = black_box((on.plugin, &on.content));
                black_box(plain::write_text(kind, name, payload, out));
                black_box(&mut *out);
            }
        }
        _ => panic!("plain C does not do that"),
    }
}
