//! Bad lines of phase two, lines that an end does not have, and odd but good ones.

use super::exchanges::{Start, AMPLE};
use crate::generate::commands::{Command, End, ENDS};
use crate::generate::Script;

pub(super) fn sections(script: &mut Script) {
    for end in ENDS {
        script.heading(&format!("Bad lines leave the answer due, {end:?}"));
        script.enter(end, &Start::recipient(), AMPLE);
        let command = Command::of_line(b"request-secret", b"PIN");
        match end {
            End::Client => script.chunk(&command.text(), 0),
            End::Plugin => script.send(&command, 100),
        }
        for line in BAD_LINES {
            script.raw(line.as_bytes());
        }
        script.show();
        for line in ODD_LINES {
            script.raw(line.as_bytes());
        }
        script.show();
    }
}

const BAD_LINES: [&str; 36] = [
    "chunk", "chunk ->\\sok\\n\\n", "chunk ->\\sok\\n\\n 9 9", "chunk ->\\sok\\n\\n 65537",
    "chunk ->\\sok\\n\\n \\e", "chunk ->\\sok\\n\\n -1", "chunk ->\\sok\\n\\n x", "chunk -> ok 9",
    "chunk ->\\sok\\q 9", "chunk  9", "response ->\\sok\\n\\n 9", "receive ->\\smsg\\n\\n 9", "reply",
    "reply ok", "reply ok \\e", "reply ok \\e 9 9", "reply ok \\e 65537", "reply ok \\e x", "reply ok \\e ",
    "reply ok  9", "reply  \\e 9", "reply \\e \\e 9", "reply OK \\e 9", "reply okay \\e 9",
    "reply ok\\syes \\e 9", "reply ok yes \\e 9", "reply maybe \\e 9", "reply Fail \\e 9",
    "reply unsupporte \\e 9", "reply ok \\q 9", "Reply ok \\e 9", "replies ok \\e 9", "awaited 1", "awaits",
    "finish 1", "finis",
];

/// At the plugin end a reply, and what is awaited, is none; the other lines answer.
const ODD_LINES: [&str; 7] = [
    "await\\eed", "reply yes \\e 65536", "re\\eply \\x66ail \\e\\e 0009",
    "ch\\x75nk \\x2d>\\sfai\\x6c 00000", "chunk \\x0A\\n 00", "reply unsupported \\x00 0", "f\\x69nish",
];
