//! Lines for the judging program.

use super::commands::{different_recipients, text_of_all, Command, RECIPIENT};
use super::phase_one::{damaged_text, some_phase};
use super::recordings::RECORDINGS;
use super::text::replaced;
use super::Script;

/// The lengths of the judging program's buffers for recipients and for identities.
const BUFFER: usize = 16_384;

pub(super) fn sections(script: &mut Script) {
    worked_examples(script);
    example_damaged(script);
    full_tables(script);
    full_buffers(script);
    odd_texts(script);
    long_texts(script);
    recordings(script);
    random_texts(script);
}

/// The example of document 004, as document 01 fills it in.
pub(super) fn example() -> Vec<Command> {
    vec![
        Command::add_recipient(b"foo"),
        Command::add_identity(b"bar"),
        Command::wrap_file_key(&[0; 16]),
        Command::add_recipient(b"baz"),
        Command::wrap_file_key(&[0; 16]),
        Command::done(),
    ]
}

fn worked_examples(script: &mut Script) {
    script.heading("Judge: the example of document 004, and empty input");
    script.judge(&text_of_all(&example()));
    script.judge(b"");
}

fn example_damaged(script: &mut Script) {
    let text = text_of_all(&example());
    script.heading("Judge: the example cut at each place");
    for len in 0..text.len() {
        script.judge(&text[..len]);
    }
    script.heading("Judge: the example with each byte changed");
    for at in 0..text.len() {
        let byte = script.random.one_of(b"\n \rAd-\x00\xff");
        script.judge(&replaced(&text, at, byte));
    }
    script.heading("Judge: the example with a command dropped, doubled, or moved to the front");
    for at in 0..example().len() {
        let mut dropped = example();
        let command = dropped.remove(at);
        script.judge(&text_of_all(&dropped));
        let mut doubled = example();
        doubled.insert(at, command.clone());
        script.judge(&text_of_all(&doubled));
        dropped.insert(0, command);
        script.judge(&text_of_all(&dropped));
    }
}

fn full_tables(script: &mut Script) {
    script.heading("Judge: 64 of a kind pass, the next gives 8");
    let kinds = [
        different_recipients(65),
        vec![Command::add_identity(b"i"); 65],
        vec![Command::wrap_file_key(&[255; 16]); 65],
    ];
    for commands in kinds {
        for count in [63, 64, 65] {
            let phase = [&commands[..count], &[Command::done()]].concat();
            script.judge(&text_of_all(&phase));
        }
    }
    script.heading("Judge: one counter for each kind");
    let recipients = different_recipients(64).into_iter();
    let kinds: Vec<Command> =
        recipients.flat_map(|recipient| [recipient, Command::add_identity(b"i")]).collect();
    script.judge(&[text_of_all(&kinds), b"-> done\n\n".to_vec()].concat());
}

/// Texts that fill a buffer exactly, and with one byte more.
fn full_buffers(script: &mut Script) {
    script.heading("Judge: buffers exactly filled, and one byte too short");
    for add in [Command::add_recipient, Command::add_identity] {
        for last in [BUFFER - 16_000, BUFFER - 15_999] {
            let phase = [add(&[b'x'; 8_000]), add(&[b'y'; 8_000]), add(&vec![b'z'; last]), Command::done()];
            script.judge(&text_of_all(&phase));
        }
    }
}

fn odd_texts(script: &mut Script) {
    script.heading("Judge: what follows done is not looked at, and unknown commands are ignored");
    let texts: [&[u8]; 22] = [
        b"-> done\n\n",
        b"-> done\n\nx",
        b"-> done\n\n-> done\n\n",
        b"-> done\n\n\r",
        b"-> done\n-> done\n\n",
        b"-> done x\n\n",
        b"-> done\nAA\n",
        b"-> Done\n\n-> done\n\n",
        b"-> recipient-stanza\n\n-> done\n\n",
        b"-> recipient-stanza 1 x\n\n-> recipient-stanza 0 x\n\n-> done\n\n",
        b"-> file-key 0\nAA\n-> done\n\n",
        b"-> msg\nAA\n-> done\n\n",
        b"-> ok\n\n-> done\n\n",
        b"\n-> done\n\n",
        b"-> done\r\n\r\n",
        b"-> add-recipient\n\n",
        b"-> add-recipient a b\n\n",
        b"-> add-recipient a\nAA\n",
        b"-> wrap-file-key\n\n",
        b"-> wrap-file-key x\nAAAAAAAAAAAAAAAAAAAAAA\n",
        b"-> wrap-file-key\nAAAAAAAAAAAAAAAAAAAA\n",
        b"-> add-identity\n\n-> done\n\n",
    ];
    for text in texts {
        script.judge(text);
        script.judge(&[b"-> add-recipient first\n\n", text].concat());
    }
}

fn long_texts(script: &mut Script) {
    script.heading("Judge: a stanza of more than 8,192 bytes, and many stanzas");
    let example = text_of_all(&example());
    let long = Command::new(b"grease", &[b'g'; 8_300], b"").text();
    script.judge(&[example[..example.len() - 9].as_ref(), &long].concat());
    let mut grease = Vec::new();
    while grease.len() < 10_000 {
        let len = script.random.below(40);
        let body = script.random.bytes(len);
        grease.extend(Command::new(b"grease", b"", &body).text());
    }
    script.judge(&[grease.as_slice(), &example].concat());
}

fn recordings(script: &mut Script) {
    for recording in &RECORDINGS {
        script.heading(&format!("Judge: the recording {}, whole and damaged", recording.name));
        script.judge(recording.text);
        if recording.machine != RECIPIENT {
            continue;
        }
        for _ in 0..25 {
            let text = damaged_text(script, recording.text);
            script.judge(&text);
        }
    }
}

fn random_texts(script: &mut Script) {
    script.heading("Judge: random phase ones, good and damaged");
    for _ in 0..70 {
        let text = text_of_all(&some_phase(script, RECIPIENT, b"judge"));
        script.judge(&text);
        let text = damaged_text(script, &text);
        script.judge(&text);
    }
}
