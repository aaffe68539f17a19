//! Forms of commands, indices, and the rules between commands: 4, 5, 6, 9, 10, 11, and the plugin end's 19.

use super::exchanges::{
    conforming, file_key, identity, nonconforming, other_recipient, recipient, unknown, Answer, Exchange,
    Start, AMPLE, FIDO2_HMAC, LONGEST_ANSWER, SHORT,
};
use crate::generate::commands::{Command, End, ENDS, IDENTITY, RECIPIENT};
use crate::generate::Script;

pub(super) fn sections(script: &mut Script) {
    forms(script);
    labels(script);
    unknown_commands(script);
    indices(script);
    named(script);
    stanzas_of_a_file(script);
    keys_of_a_file(script);
    work_and_errors(script);
    held_back_by_entries(script);
    held_back_by_stanzas(script);
    errors_for_unknown_stanzas(script);
    what_students_hand_in(script);
}

/// Lines of arguments, good and bad; what follows an accepted one is refused or not, as the rules say.
const FORMS: [&str; 58] = [
    "msg", "msg a", "msg a b", "confirm", "confirm eWVz", "confirm eWVz bm8", "confirm eWVz bm8 bm8",
    "request-public", "request-public a", "request-secret", "request-secret a", "recipient-stanza",
    "recipient-stanza 0", "recipient-stanza 01", "recipient-stanza 0 a", "recipient-stanza 01 a",
    "recipient-stanza 1 a b c d", "recipient-stanza a", "recipient-stanza a b", "file-key", "file-key 3",
    "file-key 03", "file-key 3 a", "file-key a", "error", "error internal", "error internal 0",
    "error internal internal", "error external", "error Internal", "error 0", "error identity",
    "error identity 0", "error identity 0 0", "error identity 00", "error identity a b", "error recipient",
    "error recipient 0", "error recipient 0 0", "error recipient 00", "error recipient x y", "error stanza",
    "error stanza 3", "error stanza 03", "error stanza 3 0", "error stanza 3 0 0", "error stanza 3 00",
    "error stanza 03 0", "error stanza x y z", "error stanza 9 00", "error file-key 3", "done", "done a",
    "done a b", "DONE a", "Msg a", "errors", "add-identity",
];

fn forms(script: &mut Script) {
    for end in ENDS {
        for start in Start::of_both_machines() {
            script.heading(&format!("Forms of commands in phase two, {}, {end:?}", start.machine));
            for line in FORMS {
                let bodies: &[usize] = match line {
                    "file-key 3" => &[0, 1, 15, 16, 17, 48],
                    "done" | "msg" | "error internal" => &[0, 1, 16],
                    _ => &[0, 16],
                };
                for &body in bodies {
                    form(script, end, &start, &Command::of_line(line.as_bytes(), &vec![b'b'; body]));
                }
            }
            script.show();
        }
    }
}

/// A session of its own for the command, with an answer to one that the table names, and done behind it.
fn form(script: &mut Script, end: End, start: &Start, command: &Command) {
    script.enter(end, start, [60; 7]);
    match end {
        End::Client => script.chunk(&command.text(), LONGEST_ANSWER),
        End::Plugin => script.send(command, 100),
    }
    let answer = if command.word == b"confirm" { "yes" } else { "ok" };
    match end {
        End::Client => script.reply(&Answer::new(answer), 20),
        End::Plugin => script.chunk(&Answer::new(answer).text(), 0),
    }
    script.exchange(end, &Exchange::done());
}

/// Labels of confirm, in base64 or not. The plugin end goes on after 4, the client end is closed.
fn labels(script: &mut Script) {
    let labels = [
        "AA",
        "AAA",
        "AAAA",
        "A",
        "AAAAA",
        "AB",
        "AAB",
        "AA==",
        "AAA=",
        "A-_A",
        "A+/A",
        "a b",
        "AA A",
        "A AA",
        "AA AB",
        "AA AA AA",
        "~",
        "=",
        "AA~",
        "eWVz\\",
        "TG9uZ2VyIGxhYmVsIHRoYW4gYSBsaW5lIG9mIGEgYm9keSBtYXkgYmU",
    ];
    for end in ENDS {
        script.heading(&format!("Labels, {end:?}"));
        for label in labels {
            let exchange = Exchange::of_line(&format!("confirm {label}"), b"?", "no");
            script.enter(end, &Start::new(RECIPIENT, SHORT, &[]), [0; 7]);
            script.exchange_all(end, &[exchange, Exchange::done()]);
        }
    }
}

/// Commands that the machine does not name are answered unsupported, whatever they say.
fn unknown_commands(script: &mut Script) {
    let words = [
        "grease", "add-recipient", "add-identity a", "wrap-file-key", "ok", "ok yes", "fail", "unsupported",
        "Msg", "msg!", "confirm- eWVz", "request", "request-Public", "labels x", "Done", "done! a", "!~",
        "->", "error! internal",
    ];
    for end in ENDS {
        for start in Start::of_both_machines() {
            let others = match start.machine {
                RECIPIENT => ["file-key 3", "file-key 03", "file-key", "file-key a b"],
                _ => {
                    ["recipient-stanza 0 a", "recipient-stanza 01", "recipient-stanza", "recipient-stanza a"]
                }
            };
            script.heading(&format!("Unknown commands in phase two, {}, {end:?}", start.machine));
            script.enter(end, &start, [60; 7]);
            for line in words.into_iter().chain(others) {
                for body in [0, 16] {
                    script.exchange(end, &Exchange::of_line(line, &vec![b'g'; body], "unsupported"));
                }
            }
            script.exchange(end, &Exchange::done());
            script.show();
        }
    }
}

const INDICES: [&str; 15] = [
    "0", "1", "2", "3", "7", "10", "4294967295", "4294967296", "4294967299", "18446744073709551619", "00",
    "03", "-1", "+1", "x",
];

/// Every place of an index, with good and bad ones: 5, and 6 if it names nothing.
fn indices(script: &mut Script) {
    let places = [
        (RECIPIENT, "recipient-stanza ", " tag"),
        (RECIPIENT, "error recipient ", ""),
        (RECIPIENT, "error identity ", ""),
        (IDENTITY, "file-key ", ""),
        (IDENTITY, "error identity ", ""),
        (IDENTITY, "error stanza ", " 1"),
        (IDENTITY, "error stanza 3 ", ""),
    ];
    for end in ENDS {
        for (machine, before, behind) in places {
            script.heading(&format!("Indices: {before}_{behind}, {machine}, {end:?}"));
            let start = if machine == RECIPIENT { Start::recipient() } else { Start::identity() };
            for index in INDICES {
                let body = if before == "file-key " { 16 } else { 0 };
                let line = format!("{before}{index}{behind}");
                script.enter(end, &start, [60; 7]);
                script.exchange(end, &Exchange::of_line(&line, &vec![b'i'; body], "ok"));
            }
            script.show();
        }
    }
}

/// Errors that name each entry there is, and the next one that is not; stanzas of their file and of another.
fn named(script: &mut Script) {
    let start = Start::findings();
    for end in ENDS {
        script.heading(&format!("Errors for each stanza and each file, {end:?}"));
        for file in 0..5 {
            for number in 0..7 {
                script.enter(end, &start, AMPLE);
                script.exchange(end, &Exchange::error(&format!("stanza {file} {number}"), b""));
            }
        }
        script.heading(&format!("One numbering for each kind, {end:?}"));
        let start = Start::new(RECIPIENT, SHORT, &[recipient(), identity(), identity(), file_key()]);
        for cause in ["recipient 0", "recipient 1", "identity 0", "identity 1", "identity 2", "recipient 2"] {
            script.story(end, &start, &[Exchange::error(cause, b"message")]);
        }
    }
}

/// 10: as many stanzas as recipients and identities together, for each file.
fn stanzas_of_a_file(script: &mut Script) {
    let invalid = [Command::add_recipient(b"x"), Command::add_identity(b"y")];
    let phases: [&[Command]; 5] =
        [&[], &[recipient()], &[identity()], &[recipient(), identity(), other_recipient(0)], &invalid];
    let files = [0, 1, 0, 1, 1, 0, 0, 1, 0, 1, 2];
    for end in ENDS {
        script.heading(&format!("Stanzas of a file, {end:?}"));
        for phase in phases {
            let start = Start::new(RECIPIENT, SHORT, &[phase, &[file_key(), file_key()]].concat());
            for count in 1..=files.len() {
                let exchanges: Vec<_> =
                    files[..count].iter().map(|&file| Exchange::stanza(file, "s")).collect();
                if count == files.len() || count < 4 {
                    script.story(end, &start, &exchanges);
                }
            }
        }
    }
}

/// 9: one key for a file.
fn keys_of_a_file(script: &mut Script) {
    for end in ENDS {
        script.heading(&format!("Keys of a file, {end:?}"));
        let files: [&[u32]; 6] = [&[3, 7], &[7, 3], &[3, 3], &[7, 3, 7], &[3, 7, 7], &[3, 4]];
        for files in files {
            let exchanges: Vec<_> = files.iter().map(|&file| Exchange::file_key(file)).collect();
            script.story(end, &Start::identity(), &exchanges);
        }
    }
}

/// 11: in recipient-v1 any error and any stanza, in identity-v1 error stanza f and file-key f.
fn work_and_errors(script: &mut Script) {
    let error = |cause| Exchange::error(cause, b"no");
    let talk = || Exchange::of_line("msg", b"hello", "ok");
    for end in ENDS {
        script.heading(&format!("Work and error together, {RECIPIENT}, {end:?}"));
        for cause in ["internal", "recipient 0", "identity 0"] {
            let stanza = || Exchange::stanza(1, "s");
            script.story(end, &Start::recipient(), &[error(cause), talk(), stanza(), error(cause)]);
            script.story(end, &Start::recipient(), &[stanza(), talk(), error(cause), stanza()]);
            script.story(end, &Start::recipient(), &[error(cause), error(cause), Exchange::done()]);
        }
        script.heading(&format!("Work and error together, {IDENTITY}, {end:?}"));
        let key = Exchange::file_key;
        for cause in ["internal", "stanza 0 0", "stanza 1 0", "stanza 3 1", "stanza 3 2"] {
            for file in [0, 3] {
                script.story(end, &Start::findings(), &[error(cause), talk(), key(file), key(2)]);
                script.story(end, &Start::findings(), &[key(file), talk(), error(cause), key(2)]);
            }
        }
        let errors = ["identity 0", "internal"].map(error);
        script.story(end, &Start::identity(), &[key(3), errors[0].clone(), key(7), errors[1].clone()]);
    }
}

/// 19 for invalid recipients and identities, and what the client end says to the same.
fn held_back_by_entries(script: &mut Script) {
    let bad_recipient = || Command::add_recipient(b"x");
    let bad_identity = || Command::add_identity(b"y");
    let phases: [(&'static str, Vec<Command>); 6] = [
        (RECIPIENT, vec![bad_recipient(), file_key()]),
        (RECIPIENT, vec![recipient(), bad_identity(), file_key()]),
        (
            RECIPIENT,
            vec![recipient(), bad_recipient(), identity(), bad_identity(), bad_identity(), file_key()],
        ),
        (IDENTITY, vec![bad_identity(), unknown(0)]),
        (IDENTITY, vec![identity(), bad_identity(), unknown(0), bad_identity()]),
        (IDENTITY, vec![bad_recipient(), identity(), unknown(0)]),
    ];
    let causes: [&[&str]; 6] = [
        &["internal", "recipient 0"],
        &["recipient 0", "identity 0"],
        &["recipient 0", "recipient 1", "identity 0", "identity 1", "identity 2"],
        &["internal", "identity 0"],
        &["identity 0", "identity 2", "identity 1"],
        &[],
    ];
    for end in ENDS {
        for ((machine, phase), causes) in phases.iter().zip(causes) {
            script.heading(&format!("Held back by an invalid entry, {machine}, {end:?}"));
            let start = Start::new(machine, SHORT, phase);
            let work = if *machine == RECIPIENT { Exchange::stanza(0, "s") } else { Exchange::file_key(0) };
            script.story(end, &start, &[Exchange::of_line("grease", b"", "unsupported"), work.clone()]);
            script.enter(end, &start, AMPLE);
            if end == End::Plugin {
                script.send(&Command::done(), 9);
            }
            for cause in causes {
                script.exchange(end, &Exchange::error(cause, b"bad"));
                if end == End::Plugin {
                    script.send(&work.command, 100);
                    script.send(&Command::done(), 0);
                }
            }
            script.exchange(end, &Exchange::done());
            script.show();
        }
    }
}

/// 19 for nonconforming stanzas: no key for their file, no done before their errors.
fn held_back_by_stanzas(script: &mut Script) {
    for end in ENDS {
        script.heading(&format!("Held back by a nonconforming stanza, {end:?}"));
        for file in 0..4 {
            script.story(end, &Start::findings(), &[Exchange::file_key(file)]);
        }
        for causes in
            [["stanza 1 0", "stanza 3 2"], ["stanza 3 2", "stanza 1 0"], ["stanza 3 1", "stanza 3 2"]]
        {
            script.enter(end, &Start::findings(), AMPLE);
            if end == End::Plugin {
                script.send(&Command::done(), 9);
            }
            for cause in causes {
                script.exchange(end, &Exchange::error(cause, b""));
                if end == End::Plugin {
                    script.send(&Command::done(), 8);
                }
            }
            script.exchange_all(end, &[Exchange::file_key(0), Exchange::done()]);
            script.show();
        }
        script.heading(&format!("One nonconforming stanza among others of its file, {end:?}"));
        let files: [&[Command]; 4] = [
            &[nonconforming(0), conforming(0)],
            &[nonconforming(0), unknown(0), conforming(4)],
            &[unknown(0), nonconforming(0), unknown(0)],
            &[nonconforming(0), nonconforming(0)],
        ];
        for headers in files {
            let start = Start::new(IDENTITY, FIDO2_HMAC, headers);
            for number in 0..headers.len() {
                let error = Exchange::error(&format!("stanza 0 {number}"), b"");
                let exchanges = [Exchange::file_key(0), error, Exchange::file_key(0), Exchange::done()];
                script.story(end, &start, &exchanges);
                script.story(end, &start, &exchanges[1..]);
            }
        }
        script.heading(&format!("Under another name nothing is nonconforming, {end:?}"));
        let phase = [identity(), conforming(0), nonconforming(1)];
        let exchanges = [Exchange::file_key(1), Exchange::file_key(0), Exchange::done()];
        script.story(end, &Start::new(IDENTITY, SHORT, &phase), &exchanges);
    }
}

fn errors_for_unknown_stanzas(script: &mut Script) {
    for end in ENDS {
        script.heading(&format!("An error for an unknown stanza, {end:?}"));
        for cause in ["stanza 2 0", "stanza 3 0", "stanza 2 1", "stanza 0 0"] {
            let exchanges = [Exchange::error(cause, b""), Exchange::file_key(2), Exchange::done()];
            script.story(end, &Start::findings(), &exchanges);
        }
        let exchanges = [Exchange::file_key(2), Exchange::error("stanza 2 0", b"")];
        script.story(end, &Start::findings(), &exchanges);
        let start = Start::new(IDENTITY, FIDO2_HMAC, &[unknown(0), unknown(0)]);
        script.story(end, &start, &[Exchange::error("stanza 0 1", b""), Exchange::done()]);
    }
}

/// Document 01's list, as far as sessions show it.
fn what_students_hand_in(script: &mut Script) {
    for end in ENDS {
        script.heading(&format!("ok no is not ok, {end:?}"));
        for word in ["no", "yes", "ok"] {
            script.story(
                end,
                &Start::recipient(),
                &[Exchange::of_line("confirm eWVz bm8", b"Release?", word)],
            );
            script.story(end, &Start::recipient(), &[Exchange::of_line("msg", b"Release?", word)]);
        }
        script.heading(&format!("file-key is unknown in recipient-v1, {end:?}"));
        let key = Exchange::of_line("file-key 0", &[b'k'; 16], "unsupported");
        script.story(end, &Start::recipient(), &[key, Exchange::stanza(0, "s"), Exchange::done()]);
    }
}
