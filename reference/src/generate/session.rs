//! Lines for sessions: openings, phase one at both ends, buffers, marks, look-ups, and the recordings.

use super::bech32::{other_case, signed, text_of};
use super::commands::{
    different_recipients, headers, Command, End, ENDS, IDENTITY, MACHINES, PLUGIN, RECIPIENT, ROOMY,
};
use super::judge::example;
use super::phase_one;
use super::recordings::{Recording, RECORDINGS};
use super::refusals;
use super::text::replaced;
use super::Script;
use crate::bech32::Kind;
use crate::session::KINDS;

/// All sections; no session is open before them.
pub(super) fn sections(script: &mut Script) {
    no_session(script);
    opening(script);
    worked_examples(script);
    full_tables(script);
    exact_buffers(script);
    changing_buffers(script);
    marks(script);
    findings(script);
    marks_stay(script);
    look_ups(script);
    refusals::sections(script);
    recordings(script);
    from_client_to_plugin(script);
    phase_one::sections(script);
}

fn no_session(script: &mut Script) {
    script.heading("No session is open");
    for line in [
        "buffers 0 0 0 0 0 0 0", "send done \\e \\e 9", "send \\e \\e \\e 0", "chunk ->\\sdone\\n\\n 9",
        "chunk \\e 65536", "entry recipient 0", "entry identity 18446744073709551615", "show", "awaited",
        "finish", "reply ok \\e 9", "buffers 0 0 0 0 0 0 65537", "send done \\e \\e 65537",
        "chunk \\e 65537", "entry file-key 0", "show 0", "awaited 0", "finish 0",
    ] {
        script.raw(line.as_bytes());
    }
    script.heading("A refused open leaves none open");
    script.open_plugin(b"recipient-v2", PLUGIN, ROOMY);
    script.open_client(b"recipient-v1", b"", b"screen", ROOMY);
    script.show();
}

fn opening(script: &mut Script) {
    script.heading("Openings: machines, and 18 before 17");
    let machines: [&[u8]; 12] = [
        b"recipient-v1", b"identity-v1", b"", b"recipient-v2", b"Recipient-v1", b"IDENTITY-V1",
        b"recipient-v1 ", b"identity", b"recipient-v", b"recipient-v11", b"identity-v1\n", b"\xff",
    ];
    for machine in machines {
        for name in [b"interop".as_slice(), b"Interop"] {
            script.open_plugin(machine, name, [0; KINDS]);
            for screen in [b"screen".as_slice(), b"no-screen", b"default"] {
                script.open_client(machine, name, screen, [0; KINDS]);
            }
        }
    }
    script.heading("Openings: names of 0 to 34 characters");
    for len in 0..=34 {
        script.open_plugin(b"identity-v1", &vec![b'n'; len], [0; KINDS]);
        script.open_client(b"recipient-v1", &vec![b'0'; len], b"screen", [0; KINDS]);
    }
    script.heading("Openings: every byte as a name");
    for byte in 0..=255 {
        script.open_plugin(b"recipient-v1", &[byte], [0; KINDS]);
        script.open_client(b"identity-v1", &[b'a', byte], b"default", [0; KINDS]);
    }
    script.heading("A refused open leaves the earlier session and its buffers");
    for end in ENDS {
        script.open(end, RECIPIENT, PLUGIN, ROOMY);
        script.pass(end, &Command::add_recipient(b"kept"));
        script.open_plugin(b"identity-v2", PLUGIN, [0; KINDS]);
        script.open_client(b"identity-v1", b"A", b"screen", [0; KINDS]);
        script.entry(Kind::Recipient, 0);
        script.pass(end, &Command::add_recipient(b"another"));
        script.show();
    }
    script.heading("An open that is not refused begins anew");
    for end in ENDS {
        script.open(end, RECIPIENT, PLUGIN, ROOMY);
        script.pass(end, &Command::add_recipient(b"gone"));
        script.open(end, RECIPIENT, PLUGIN, ROOMY);
        script.show();
    }
}

fn worked_examples(script: &mut Script) {
    for end in ENDS {
        script.heading(&format!("File indices 3, 3, 7 pass; 3, 2 gives 7, {end:?}"));
        script.conversation(end, IDENTITY, ROOMY, &headers(&[3, 3, 7]));
        script.conversation(end, IDENTITY, ROOMY, &headers(&[3, 2]));
        script.heading(&format!("The example of document 004, {end:?}"));
        script.conversation(end, RECIPIENT, ROOMY, &example());
        script.conversation(end, IDENTITY, ROOMY, &example());
        script.heading(&format!("done needs nothing before it, {end:?}"));
        script.conversation(end, RECIPIENT, [0; KINDS], &[Command::done()]);
        script.conversation(end, IDENTITY, [0; KINDS], &[Command::done()]);
    }
}

fn full_tables(script: &mut Script) {
    let numbered = |number: usize| format!("{}", number % 10).into_bytes();
    for end in ENDS {
        script.heading(&format!("64 recipients pass, the 65th gives 8, {end:?}"));
        let recipients = different_recipients(65);
        script.conversation(end, RECIPIENT, ROOMY, &recipients);
        script.heading(&format!("64 identities pass, the 65th gives 8, {end:?}"));
        let identities: Vec<_> = (0..65).map(|number| Command::add_identity(&numbered(number))).collect();
        script.conversation(end, IDENTITY, ROOMY, &identities);
        script.heading(&format!("64 file keys pass, the 65th gives 8, {end:?}"));
        let mut lens = ROOMY;
        lens[2] = 2_000;
        script.conversation(end, RECIPIENT, lens, &vec![Command::wrap_file_key(&[b'k'; 16]); 65]);
        script.heading(&format!("256 header stanzas pass, the 257th gives 8, {end:?}"));
        let files: Vec<u32> = (0..257).map(|number| number / 2).collect();
        script.conversation(end, IDENTITY, ROOMY, &headers(&files));
        script.heading(&format!("A full table stops no other kind, {end:?}"));
        let mut phase = recipients[..64].to_vec();
        phase.extend([Command::add_identity(b"i"), Command::wrap_file_key(&[b'k'; 16]), Command::done()]);
        script.conversation(end, RECIPIENT, ROOMY, &phase);
    }
}

/// A machine, the place of a kind's buffer, and three commands of the kind with the lengths of their payloads.
type KindOfCommands = (&'static str, usize, [(Command, usize); 3]);

fn commands_by_kind() -> [KindOfCommands; 5] {
    let texts = |add: fn(&[u8]) -> Command| [(add(b"abc"), 3), (add(b"d"), 1), (add(b"efghi"), 5)];
    let keys = [b'1', b'2', b'3'].map(|byte| (Command::wrap_file_key(&[byte; 16]), 16));
    let stanzas = [
        (Command::recipient_stanza(b"0", b"a", b""), 2),
        (Command::recipient_stanza(b"0", b"a bb", b"body"), 9),
        (Command::recipient_stanza(b"10", b"tag", &[b'z'; 48]), 52),
    ];
    [
        (RECIPIENT, 0, texts(Command::add_recipient)),
        (RECIPIENT, 1, texts(Command::add_identity)),
        (IDENTITY, 1, texts(Command::add_identity)),
        (RECIPIENT, 2, keys),
        (IDENTITY, 3, stanzas),
    ]
}

/// Each kind's buffer exactly long enough for one, two and three commands, and one byte too short for each;
/// the other kinds have none.
fn exact_buffers(script: &mut Script) {
    for end in ENDS {
        script.heading(&format!("Buffers exactly long enough, and one byte too short, {end:?}"));
        for (machine, place, commands) in commands_by_kind() {
            let mut len = 0;
            let mut phase = Vec::new();
            for (command, payload) in commands {
                len += payload;
                phase.push(command);
                for len in [len, len - 1, len + 1] {
                    let mut lens = [0; KINDS];
                    lens[place] = len;
                    script.conversation(end, machine, lens, &phase);
                }
            }
        }
    }
}

/// Buffers that become shorter and longer between calls: what is kept counts, whatever is lent now.
fn changing_buffers(script: &mut Script) {
    for end in ENDS {
        script.heading(&format!("Buffers that change between calls, {end:?}"));
        for (machine, place, commands) in commands_by_kind() {
            let lens = |len: usize| std::array::from_fn(|other| if other == place { len } else { 0 });
            let [(first, first_len), (second, second_len), (third, third_len)] = commands;
            let kept = first_len + second_len;
            for len in [0, first_len - 1, first_len, kept - 1, kept, kept + third_len - 1, kept + third_len] {
                script.open(end, machine, PLUGIN, lens(kept));
                script.pass_all(end, &[first.clone(), second.clone()]);
                script.buffers(lens(len));
                script.show();
                script.pass(end, &third);
                script.buffers(lens(200));
                script.show();
            }
            script.open(end, machine, PLUGIN, lens(kept));
            script.pass(end, &first);
            // The buffer is lent anew, and its end is zeros.
            script.buffers(lens(0));
            script.buffers(lens(kept));
            script.pass(end, &second);
            script.show();
        }
    }
}

/// Recipients and identities that are the plugin's, another's, or no Bech32.
fn marks(script: &mut Script) {
    let add_recipient: fn(&[u8]) -> Command = Command::add_recipient;
    for end in ENDS {
        for (kind, add) in [(Kind::Recipient, add_recipient), (Kind::Identity, Command::add_identity)] {
            script.heading(&format!("Marks: {kind:?}, {end:?}"));
            let phase: Vec<Command> = texts_to_mark(kind).iter().map(|text| add(text)).collect();
            script.conversation(end, RECIPIENT, [4_000; KINDS], &phase);
        }
    }
}

/// The first two and the one of 600 bytes are valid, and of the two short ones that of the kind.
fn texts_to_mark(kind: Kind) -> [Vec<u8>; 17] {
    let good = text_of(kind, PLUGIN, b"payload");
    [
        good.clone(),
        text_of(kind, PLUGIN, b""),
        text_of(kind, b"other", b"payload"),
        text_of(kind, b"interop-", b"payload"),
        text_of(kind, b"intero", b"payload"),
        text_of(kind, b"", b"payload"),
        text_of(Kind::Recipient, PLUGIN, b"p"),
        text_of(Kind::Identity, PLUGIN, b"p"),
        other_case(&good),
        [good.as_slice(), b"q"].concat(),
        good[1..].to_vec(),
        b"age1".to_vec(),
        b"x".to_vec(),
        text_of(kind, PLUGIN, &[7; 600]),
        text_of(kind, PLUGIN, &[7; 640]),
        signed(kind, PLUGIN, &[7; 3]),
        replaced(&good, good.len() - 9, good[good.len() - 10]),
    ]
}

/// A fido2-hmac stanza's tag, salt and nonce.
fn conforming_line() -> Vec<u8> {
    [b"fido2-hmac ".as_slice(), &[b'A'; 43], b" ", &[b'A'; 16]].concat()
}

/// Header stanzas of each finding, under the plugin's name and another.
fn findings(script: &mut Script) {
    let good = conforming_line();
    let stanzas = [
        Command::recipient_stanza(b"0", &good, &[b'k'; 32]),
        Command::recipient_stanza(b"0", &[&good, b" AA".as_slice()].concat(), &[b'k'; 32]),
        Command::recipient_stanza(b"1", &good, &[b'k'; 31]),
        Command::recipient_stanza(b"1", &[&good, b" AB".as_slice()].concat(), &[b'k'; 32]),
        Command::recipient_stanza(b"2", b"fido2-hmac", b""),
        Command::recipient_stanza(b"2", b"X25519 AA", &[b'k'; 32]),
        Command::recipient_stanza(b"4294967295", b"FIDO2-HMAC", b""),
    ];
    for end in ENDS {
        for plugin in [b"fido2-hmac".as_slice(), b"fido2-hma", b"interop"] {
            script.heading(&format!("Findings, {end:?}"));
            script.open(end, IDENTITY, plugin, ROOMY);
            script.pass_all(end, &stanzas);
            script.show();
        }
    }
}

/// A mark is made when the command is accepted; what the buffers show later does not change it.
fn marks_stay(script: &mut Script) {
    script.heading("Marks and findings stay when the buffers change");
    let phase = [
        Command::add_identity(&text_of(Kind::Identity, b"fido2-hmac", b"")),
        Command::add_identity(b"x"),
        Command::recipient_stanza(b"0", &conforming_line(), &[b'k'; 32]),
        Command::recipient_stanza(b"0", b"fido2-hmac", b""),
    ];
    for end in ENDS {
        script.open(end, IDENTITY, b"fido2-hmac", ROOMY);
        script.pass_all(end, &phase);
        for len in [20, 200] {
            script.buffers([len; KINDS]);
            script.show();
        }
    }
}

fn look_ups(script: &mut Script) {
    for end in ENDS {
        for machine in MACHINES {
            script.heading(&format!("Look-ups in every state, {machine}, {end:?}"));
            script.open(end, machine, PLUGIN, ROOMY);
            some_look_ups(script);
            let entries = [
                Command::add_recipient(b"foo"),
                Command::add_identity(b"bar!"),
                Command::add_recipient(b"ba\\z"),
            ];
            script.pass_all(end, &entries);
            some_look_ups(script);
            for len in [9, 8, 7, 6, 4, 3, 2, 0, 9] {
                script.buffers([len; KINDS]);
                some_look_ups(script);
            }
            script.pass(end, &Command::done());
            some_look_ups(script);
        }
    }
    script.heading("Look-ups in a closed session");
    script.open(End::Plugin, RECIPIENT, PLUGIN, ROOMY);
    script.pass_all(End::Plugin, &[Command::add_recipient(b"foo"), Command::add_identity(b"bar")]);
    script.chunk(b"x", 0);
    some_look_ups(script);
    script.show();
    script.heading("Look-ups with large numbers");
    for number in ["63", "64", "256", "4294967296", "18446744073709551615", "00000000000000000000000000001"] {
        script.raw(format!("entry recipient {number}").as_bytes());
        script.raw(format!("entry identity {number}").as_bytes());
    }
}

fn some_look_ups(script: &mut Script) {
    for number in 0..2 {
        script.entry(Kind::Recipient, number);
        script.entry(Kind::Identity, number);
    }
}

fn recordings(script: &mut Script) {
    for recording in &RECORDINGS {
        script
            .heading(&format!("The recording {}, in one chunk: behind done none is awaited", recording.name));
        script.open(End::Plugin, recording.machine, recording.plugin, ROOMY);
        script.chunk(recording.text, 0);
        script.show();
        script.heading(&format!("The phase one of {}, sent", recording.name));
        for end in ENDS {
            script.open(end, recording.machine, recording.plugin, ROOMY);
            script.pass_all(end, &recording.phase_one());
            script.show();
        }
        script.heading(&format!("The recording {}, damaged", recording.name));
        for _ in 0..15 {
            let Recording { machine, plugin, .. } = *recording;
            phase_one::damaged_on_the_way(script, machine, plugin, &recording.phase_one());
        }
    }
}

/// Each text that the client writes is received by a plugin session.
fn from_client_to_plugin(script: &mut Script) {
    for machine in MACHINES {
        for plugin in [PLUGIN, b"fido2-hmac"] {
            for _ in 0..15 {
                let phase = phase_one::some_phase(script, machine, plugin);
                script.heading(&format!("Sent by a client, received by a plugin, {machine}"));
                for end in ENDS {
                    script.open(end, machine, plugin, ROOMY);
                    script.pass_all(end, &phase);
                    script.show();
                }
            }
        }
    }
}

#[cfg(test)]
mod tests {
    use super::*;
    use crate::bech32::fault;

    #[test]
    fn four_of_the_texts_to_mark_are_valid() {
        for kind in [Kind::Recipient, Kind::Identity] {
            let valid = |text: &&Vec<u8>| fault(kind, text, PLUGIN).is_none();
            assert_eq!(texts_to_mark(kind).iter().filter(valid).count(), 4);
        }
    }
}
