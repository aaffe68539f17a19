//! Lines for phase one's refusals: each one, their order, and what they leave behind.

use super::commands::{headers, Command, End, ENDS, IDENTITY, MACHINES, PLUGIN, RECIPIENT, ROOMY};
use super::Script;
use crate::session::KINDS;

pub(super) fn sections(script: &mut Script) {
    forms(script);
    unknown_commands(script);
    indices(script);
    stanza_faults(script);
    long_stanzas(script);
    unwritable(script);
    judged_by_its_text(script);
    output_buffers(script);
    order_of_refusals(script);
    after_refusals(script);
    after_done(script);
}

/// Forms of each command, good and bad, in both machines; each in a session of its own, with done behind it.
fn forms(script: &mut Script) {
    let lines: [&[u8]; 23] = [
        b"add-recipient", b"add-recipient a", b"add-recipient a b", b"add-identity", b"add-identity a",
        b"add-identity a b", b"wrap-file-key", b"wrap-file-key a", b"wrap-file-key a b", b"recipient-stanza",
        b"recipient-stanza 0", b"recipient-stanza 0 a", b"recipient-stanza 0 a b c d", b"recipient-stanza a",
        b"recipient-stanza a b", b"recipient-stanza 01", b"recipient-stanza 01 a", b"done", b"done a",
        b"done a b", b"DONE a", b"done! a", b"file-key 0",
    ];
    for end in ENDS {
        for machine in MACHINES {
            script.heading(&format!("Forms of commands, {machine}, {end:?}"));
            for line in lines {
                let bodies: &[usize] =
                    if line == b"wrap-file-key" { &[0, 1, 15, 16, 17, 48] } else { &[0, 1, 16] };
                for &body in bodies {
                    script.open(end, machine, PLUGIN, [200; KINDS]);
                    script.pass(end, &Command::of_line(line, &vec![b'b'; body]));
                    script.pass(end, &Command::done());
                }
                script.show();
            }
        }
    }
}

fn unknown_commands(script: &mut Script) {
    let unknown: [&[u8]; 15] = [
        b"grease", b"msg", b"confirm eWVz", b"request-public", b"request-secret", b"file-key 0",
        b"error internal", b"ok", b"ok yes", b"fail", b"unsupported", b"Add-recipient a",
        b"add-recipients a", b"add-identity- a", b"!~",
    ];
    for end in ENDS {
        for machine in MACHINES {
            script.heading(&format!("Unknown commands are ignored, {machine}, {end:?}"));
            script.open(end, machine, PLUGIN, [0; KINDS]);
            for line in unknown {
                script.pass(end, &Command::of_line(line, b""));
                script.pass(end, &Command::of_line(line, &[b'g'; 100]));
            }
            script.show();
        }
    }
    script.heading("What one machine names the other ignores");
    for end in ENDS {
        script.open(end, IDENTITY, PLUGIN, [0; KINDS]);
        for body in [0, 16] {
            script.pass(end, &Command::new(b"add-recipient", b"a", &vec![b'k'; body]));
            script.pass(end, &Command::new(b"wrap-file-key", b"", &vec![b'k'; body]));
        }
        script.show();
        script.open(end, RECIPIENT, PLUGIN, [0; KINDS]);
        for index in [b"3".as_slice(), b"2", b"01", b"x"] {
            script.pass(end, &Command::recipient_stanza(index, b"tag", b""));
        }
        script.show();
    }
}

fn indices(script: &mut Script) {
    let texts: [&[u8]; 16] = [
        b"0", b"1", b"9", b"10", b"4294967295", b"4294967296", b"4294967305", b"18446744073709551616", b"00",
        b"01", b"-1", b"+1", b"1x", b"x", b"0x1", b"1,000",
    ];
    for end in ENDS {
        script.heading(&format!("Indices of header stanzas, {end:?}"));
        for text in texts {
            script.open(end, IDENTITY, PLUGIN, [200; KINDS]);
            script.pass(end, &Command::recipient_stanza(text, b"tag", b""));
            script.pass(end, &Command::recipient_stanza(b"1", b"tag", b""));
            script.show();
        }
        script.heading(&format!("Indices never fall, {end:?}"));
        let files: [&[u32]; 10] = [
            &[0, 0, 0],
            &[0, 1, 2],
            &[5, 4],
            &[0, 1, 0],
            &[1, 1, 0, 2],
            &[9, 10, 9],
            &[10, 9],
            &[u32::MAX, u32::MAX],
            &[u32::MAX, 0],
            &[2_147_483_648, 2_147_483_647],
        ];
        for files in files {
            script.conversation(end, IDENTITY, ROOMY, &headers(files));
        }
        script.heading(&format!("An index falls against the last accepted, {end:?}"));
        script.open(end, IDENTITY, PLUGIN, [20; KINDS]);
        script.pass_all(end, &headers(&[3]));
        script.pass(end, &Command::recipient_stanza(b"8", b"too-long-for-the-buffer", b""));
        script.pass_all(end, &headers(&[5, 4, 3]));
        script.show();
    }
}

/// Texts that are no stanza, have not ended, or are more than one, in the middle of a phase one.
fn stanza_faults(script: &mut Script) {
    script.heading("Faults of a stanza's text");
    let texts: [&[u8]; 20] = [
        b"",
        b"-",
        b"-> ",
        b"-> done",
        b"-> done\n",
        b"-> add-recipient b\nAA",
        b"x",
        b"->done\n\n",
        b"-> done\r\n\r\n",
        b"-> add-recipient  b\n\n",
        b"-> add-recipient b \n\n",
        b"-> add-recipient b\n=\n",
        b"-> add-recipient b\nA\n",
        b"-> wrap-file-key\nAAAAAAAAAAAAAAAAAAAAAB\n",
        b"-> wrap-file-key\nAAAAAAAAAAAAAAAAAAAAAA==\n",
        b"-> done\n-> done\n\n",
        b" -> done\n\n",
        b"-> done\n\n-> done\n\n",
        b"-> add-recipient b\n\n\r",
        b"-> unknown\x7f\n\n",
    ];
    for text in texts {
        script.open(End::Plugin, RECIPIENT, PLUGIN, ROOMY);
        script.chunk(b"-> add-recipient a\n\n", 0);
        script.chunk(text, 0);
        script.chunk(b"-> add-recipient c\n\n", 0);
        script.show();
    }
}

/// Stanzas of 8,192 bytes and more, received and sent.
fn long_stanzas(script: &mut Script) {
    script.heading("Stanzas of 8,192 and of 8,193 bytes");
    // "-> add-recipient " and two LFs are 19 bytes.
    for len in [8_173, 8_174] {
        for end in ENDS {
            script.open(end, RECIPIENT, PLUGIN, [9_000; KINDS]);
            script.pass(end, &Command::add_recipient(&vec![b'r'; len]));
            script.pass(end, &Command::done());
        }
    }
    script.heading("An unknown command of more than 8,192 bytes");
    for end in ENDS {
        script.open(end, IDENTITY, PLUGIN, ROOMY);
        script.pass(end, &Command::new(b"grease", b"", &[b'g'; 6_200]));
        script.show();
    }
}

/// What can't be written is refused with 17, whatever the command; the session goes on.
fn unwritable(script: &mut Script) {
    script.heading("What can't be sent");
    for machine in MACHINES {
        script.open(End::Client, machine, PLUGIN, ROOMY);
        let commands: [(&[u8], &[u8]); 22] = [
            (b"", b""),
            (b"", b"a"),
            (b"", b"done"),
            (b" ", b""),
            (b" done", b""),
            (b"done ", b""),
            (b"add-identity", b" "),
            (b"add-identity", b" a"),
            (b"add-identity", b"a "),
            (b"add-identity", b"a  b"),
            (b"add-identity", b"a\n"),
            (b"add-identity", b"\r"),
            (b"add-identity", b"\x00"),
            (b"add-identity", b"a\x7fb"),
            (b"add-identity", b"\xff"),
            (b"add-identity\n", b"a"),
            (b"done\n", b""),
            (b"\x1f", b""),
            (b"grease", b"\x80"),
            (b"recipient-stanza", b"01  x"),
            (b"wrap-file-key", b" "),
            (b"grease\ndone", b""),
        ];
        for (word, arguments) in commands {
            script.send(&Command::new(word, arguments, b""), 100);
            script.send(&Command::new(word, arguments, b"body"), 0);
        }
    }
}

/// The word of a line that sends may itself have spaces.
fn judged_by_its_text(script: &mut Script) {
    script.heading("What is sent is judged by the text that it makes");
    for machine in MACHINES {
        script.open(End::Client, machine, PLUGIN, ROOMY);
        script.send(&Command::new(b"add-identity a", b"", b""), 100);
        script.send(&Command::new(b"add-identity a", b"b", b""), 100);
        script.send(&Command::new(b"recipient-stanza 0", b"tag", b""), 100);
        script.send(&Command::new(b"add-recipient c", b"", b""), 100);
        script.send(&Command::new(b"grease a b", b"c d", b""), 100);
        script.send(&Command::new(b"->", b"done", b""), 100);
        script.show();
    }
}

/// Output buffers exactly long enough, one byte too short, and none.
fn output_buffers(script: &mut Script) {
    for machine in MACHINES {
        script.heading(&format!("Output buffers, {machine}"));
        script.open(End::Client, machine, PLUGIN, ROOMY);
        let commands = [
            Command::add_recipient(b"a"),
            Command::add_identity(b"b"),
            Command::wrap_file_key(&[b'k'; 16]),
            Command::recipient_stanza(b"5", b"tag", &[b'b'; 48]),
            Command::new(b"grease", b"a b", &[b'g'; 47]),
            Command::done(),
        ];
        for command in commands {
            let len = command.text().len();
            for out in [0, 1, len - 1] {
                script.send(&command, out);
            }
            script.show();
            script.send(&command, if machine == RECIPIENT { len } else { 65_536 });
        }
        script.show();
    }
}

/// Calls with several faults at once.
fn order_of_refusals(script: &mut Script) {
    script.heading("Several faults at once: sending");
    script.open(End::Client, IDENTITY, PLUGIN, [6; KINDS]);
    script.send(&Command::recipient_stanza(b"3", b"t", b""), 100);
    let commands: [(&[u8], &[u8], &[u8]); 12] = [
        // 17 before 4, 5, 7, 8 and 15.
        (b"recipient-stanza", b"01 ", b""),
        (b"add-identity", b"a  b", b"body"),
        (b"done", b"\n", b"body"),
        // 4 before 5, 7, 8 and 15.
        (b"recipient-stanza", b"01", b"a-long-body"),
        (b"add-identity", b"too-long too-long", b""),
        (b"done", b"a", b""),
        // 5 before 7, 8 and 15.
        (b"recipient-stanza", b"02 too-long", b""),
        (b"recipient-stanza", b"4294967296 t", b""),
        // 7 before 8 and 15.
        (b"recipient-stanza", b"2 too-long", b""),
        (b"recipient-stanza", b"2 t", b""),
        // 8 before 15.
        (b"recipient-stanza", b"3 too-long", b""),
        (b"add-identity", b"too-long", b""),
    ];
    for (word, arguments, body) in commands {
        script.send(&Command::new(word, arguments, body), 0);
    }
    script.send(&Command::new(b"add-identity", b"fits", b""), 0);
    script.send(&Command::new(b"add-identity", b"fits", b""), 100);
    script.show();
    script.heading("Several faults at once: receiving");
    for (word, arguments, body) in commands {
        script.open(End::Plugin, IDENTITY, PLUGIN, [6; KINDS]);
        script.chunk(b"-> recipient-stanza 3 t\n\n", 0);
        script.chunk(&Command::new(word, arguments, body).text(), 0);
        script.show();
    }
    script.heading("Several faults at once: a full table and a falling index");
    script.open(End::Client, IDENTITY, PLUGIN, ROOMY);
    script.pass_all(End::Client, &headers(&[1; 256]));
    script.pass_all(End::Client, &headers(&[0, 1]));
}

/// What a plugin session says after each fault, each of which closes it, and after a stanza that has not ended.
fn after_refusals(script: &mut Script) {
    let faults: [&[u8]; 8] = [
        b"x", b"-> done\n", b"-> done a\n\n", b"-> recipient-stanza 01 x\n\n",
        b"-> recipient-stanza 0 x\n\n", b"-> add-identity too-long\n\n", b"-> add-identity\n\n", b"",
    ];
    script.heading("After each refusal at the plugin end");
    for fault in faults {
        script.open(End::Plugin, IDENTITY, PLUGIN, [6; KINDS]);
        script.chunk(b"-> recipient-stanza 3 x\n\n", 0);
        script.chunk(fault, 0);
        script.finish();
        script.show();
        for text in [b"-> add-identity a\n\n".as_slice(), b"x", b"-> done\n\n", b"", b"-> add-identity b\n\n"]
        {
            script.chunk(text, 0);
        }
        script.show();
    }
}

/// After done every call of phase one is refused with 14, whatever it says; an empty chunk asks nothing.
fn after_done(script: &mut Script) {
    script.heading("After done: a call of the other phase");
    for machine in MACHINES {
        for end in ENDS {
            script.open(end, machine, PLUGIN, ROOMY);
            script.pass_all(end, &[Command::add_identity(b"a"), Command::done()]);
            let commands = [
                Command::add_identity(b"b"),
                Command::done(),
                Command::new(b"done", b"a", b""),
                Command::new(b"grease", b"", b""),
            ];
            script.pass_all(end, &commands);
            script.show();
        }
    }
    script.heading("After done nothing is looked at");
    for machine in MACHINES {
        script.open(End::Plugin, machine, PLUGIN, ROOMY);
        for text in [b"-> done\n\n".as_slice(), b"", b"x", b"-> done\n"] {
            script.chunk(text, 0);
        }
        script.open(End::Client, machine, PLUGIN, ROOMY);
        script.send(&Command::done(), 9);
        script.send(&Command::new(b"", b"", b""), 0);
        script.send(&Command::new(b"a", b" ", b""), 0);
        script.show();
    }
}
