//! Phase one at both ends: worked examples, each refusal, and what it leaves behind.

use super::super::*;
use super::{text, LENGTHS};
use crate::profile::Finding;
use phase_one::Command;
use Refusal::{
    BadIndex, IndexFalls, NoSpace, NotAStanza, OutOfTurn, OutputTooShort, RepeatedRecipient, SessionOver,
    TooLong, UnknownMachine, Unwritable, WrongForm,
};

fn plugin(machine: &str) -> (Plugin, Buffers) {
    (Plugin::open(machine.as_bytes(), b"interop").unwrap(), Buffers::zeros(LENGTHS))
}

fn client(machine: &str) -> (Client, Buffers) {
    (Client::open(machine.as_bytes(), b"interop").unwrap(), Buffers::zeros(LENGTHS))
}

/// What a plugin session says to a chunk that is one command.
fn receive(plugin: &mut Plugin, buffers: &mut Buffers, chunk: &[u8]) -> Result<Command, Refusal> {
    let received = plugin.chunk(chunk, buffers, &mut []);
    assert_eq!((received.count, received.written), (usize::from(received.refusal.is_none()), 0));
    match received.accepted()?.last {
        Some(What::Command(command)) => Ok(command),
        last => panic!("{last:?}"),
    }
}

/// What a plugin session that is still open says to one command, and that a refusal changes nothing else.
fn received(machine: &str, arguments: &str, body: &[u8]) -> Result<Command, Refusal> {
    let (mut plugin, mut buffers) = plugin(machine);
    let answer = receive(&mut plugin, &mut buffers, &text(arguments, body));
    if answer.is_err() {
        assert_eq!(plugin.session.phase, Phase::Closed);
        assert_eq!(plugin.session.tables, Tables::default());
        assert_eq!(buffers, Buffers::zeros(LENGTHS));
    }
    answer
}

/// What a client session says to one command, and that a refusal changes nothing.
fn sent(machine: &str, arguments: &str, body: &[u8]) -> Result<(), Refusal> {
    let (mut client, mut buffers) = client(machine);
    let before = client.clone();
    let mut out = vec![0; stanza::LIMIT];
    let answer = client.send(arguments.as_bytes(), body, &mut buffers, &mut out);
    if answer.is_err() {
        assert_eq!((client, buffers, out), (before, Buffers::zeros(LENGTHS), vec![0; stanza::LIMIT]));
    }
    answer.map(|_| ())
}

/// Receives the commands, which have no bodies, up to the first refusal.
fn receive_lines(plugin: &mut Plugin, buffers: &mut Buffers, lines: &[&str]) -> Result<(), Refusal> {
    lines.iter().try_for_each(|line| receive(plugin, buffers, &text(line, b"")).map(|_| ()))
}

#[test]
fn opening() {
    for (machine, name, refusal) in [
        ("recipient-v1", "Interop", Unwritable),
        ("identity-v1", "", Unwritable),
        ("identity-v1", "a b", Unwritable),
        ("Recipient-v1", "", UnknownMachine),
        ("recipient-v2", "interop", UnknownMachine),
        ("", "A", UnknownMachine),
    ] {
        assert_eq!(Client::open(machine.as_bytes(), name.as_bytes()), Err(refusal));
        assert_eq!(Plugin::open(machine.as_bytes(), name.as_bytes()), Err(refusal));
    }
    assert_eq!(Plugin::open(b"identity-v1", &[b'a'; 33]), Err(Unwritable));
    assert!(Plugin::open(b"identity-v1", &[b'a'; 32]).is_ok());
}

#[test]
fn a_client_has_no_screen_unless_told_otherwise() {
    let screen = |screen| Client::open_with(b"identity-v1", b"a", screen).unwrap().has_screen();
    assert!(!client("identity-v1").0.has_screen() && screen(true) && !screen(false));
}

#[test]
fn worked_example_file_indices() {
    let (mut plugin, mut buffers) = plugin("identity-v1");
    let pass = ["recipient-stanza 3 x", "recipient-stanza 3 x", "recipient-stanza 7 x"];
    assert_eq!(receive_lines(&mut plugin, &mut buffers, &pass), Ok(()));
    assert_eq!(receive_lines(&mut plugin, &mut buffers, &["recipient-stanza 6 x"]), Err(IndexFalls));

    let (mut client, mut buffers) = client("identity-v1");
    let mut send = |line: &str| client.send(line.as_bytes(), b"", &mut buffers, &mut [0; 99]).err();
    assert_eq!(send("recipient-stanza 3 x"), None);
    assert_eq!(send("recipient-stanza 2 x"), Some(IndexFalls));
    assert_eq!(send("recipient-stanza 3 x"), None);
}

#[test]
fn worked_example_64_recipients() {
    let (mut plugin, mut buffers) = plugin("recipient-v1");
    let lines: Vec<String> = (0..65).map(|number| format!("add-recipient r{number}")).collect();
    let lines: Vec<&str> = lines.iter().map(String::as_str).collect();
    assert_eq!(receive_lines(&mut plugin, &mut buffers, &lines[..64]), Ok(()));
    assert_eq!(receive_lines(&mut plugin, &mut buffers, &["add-identity i"]), Ok(()));
    // The repeat of one of 64 is 20, before 8.
    assert_eq!(
        receive_lines(&mut plugin.clone(), &mut buffers, &["add-recipient r63"]),
        Err(RepeatedRecipient)
    );
    assert_eq!(receive_lines(&mut plugin, &mut buffers, &lines[64..]), Err(NoSpace));
    assert_eq!(plugin.session.tables.of(Kind::Recipient).len(), 64);
}

/// Receiving closes; sending leaves all as it was, and goes on.
#[test]
fn a_recipient_comes_once() {
    let (mut plugin, mut buffers) = plugin("recipient-v1");
    let lines = ["add-recipient abc", "add-recipient de", "grease", "add-recipient abc"];
    assert_eq!(receive_lines(&mut plugin, &mut buffers, &lines), Err(RepeatedRecipient));
    assert_eq!(plugin.session.phase, Phase::Closed);
    assert_eq!(plugin.session.tables.of(Kind::Recipient).len(), 2);

    let (mut client, mut buffers) = client("recipient-v1");
    let mut send = |line: &str, body: &[u8], out: usize| {
        client.send(line.as_bytes(), body, &mut buffers, &mut vec![0; out]).err()
    };
    assert_eq!(send("add-recipient abc", b"", 99), None);
    assert_eq!(send("add-recipient abc", b"", 0), Some(RepeatedRecipient));
    assert_eq!(send("add-recipient abc", b"x", 0), Some(WrongForm));
    assert_eq!(send("add-recipient abc abc", b"", 0), Some(WrongForm));
    for line in ["add-recipient ab", "add-recipient abcd", "add-recipient Abc", "add-identity abc"] {
        assert_eq!(send(line, b"", 99), None, "{line}");
        let again = line.starts_with("add-recipient").then_some(RepeatedRecipient);
        assert_eq!(send(line, b"", 99), again, "{line}");
    }
    assert_eq!(send("done", b"", 99), None);
    assert_eq!(send("add-recipient abc", b"", 99), Some(OutOfTurn));
}

/// In one chunk, and in single bytes: what stood before the repeat stands.
#[test]
fn a_repeated_recipient_in_mid_chunk() {
    let before = [text("add-recipient abc", b""), text("add-recipient abcd", b"")].concat();
    let chunk = [before.as_slice(), &text("add-recipient abc", b""), &text("done", b"")].concat();
    let (mut plugin, mut buffers) = plugin("recipient-v1");
    let mut bytes = plugin.clone();
    let mut same = buffers.clone();
    let received = plugin.chunk(&chunk, &mut buffers, &mut []);
    assert_eq!((received.refusal, received.count), (Some(RepeatedRecipient), 2));
    let refusal = chunk.iter().find_map(|&byte| bytes.chunk(&[byte], &mut same, &mut []).refusal);
    assert_eq!(refusal, Some(RepeatedRecipient));
    assert_eq!((bytes, same), (plugin, buffers));
}

/// What the lent buffer shows is compared: an entry that it is too short for equals nothing.
#[test]
fn recipients_are_compared_as_the_buffer_shows_them() {
    let (mut plugin, mut buffers) = plugin("recipient-v1");
    assert_eq!(receive_lines(&mut plugin, &mut buffers, &["add-recipient abc", "add-recipient de"]), Ok(()));
    let refused = |len: usize, line: &str| {
        let mut buffers = buffers.clone();
        buffers.resize([len; KINDS]);
        receive_lines(&mut plugin.clone(), &mut buffers, &[line]).err()
    };
    for (len, first, second) in [
        (2, NoSpace, NoSpace),
        (3, RepeatedRecipient, NoSpace),
        (4, RepeatedRecipient, NoSpace),
        (5, RepeatedRecipient, RepeatedRecipient),
        (9, RepeatedRecipient, RepeatedRecipient),
    ] {
        assert_eq!(refused(len, "add-recipient abc"), Some(first), "{len}");
        assert_eq!(refused(len, "add-recipient de"), Some(second), "{len}");
    }
    buffers.resize([4; KINDS]);
    buffers.resize([9; KINDS]);
    let refused = |line| receive_lines(&mut plugin.clone(), &mut buffers.clone(), &[line]).err();
    assert_eq!(refused("add-recipient abc"), Some(RepeatedRecipient));
    assert_eq!(refused("add-recipient de"), None);
}

#[test]
fn in_identity_v1_recipients_are_unknown_and_may_repeat() {
    let (mut plugin, mut buffers) = plugin("identity-v1");
    let lines = ["add-recipient a", "add-recipient a", "add-identity a", "add-identity a"];
    assert_eq!(receive_lines(&mut plugin, &mut buffers, &lines), Ok(()));
}

#[test]
fn header_stanzas_have_256_slots() {
    let (mut plugin, mut buffers) = plugin("identity-v1");
    assert_eq!(receive_lines(&mut plugin, &mut buffers, &["recipient-stanza 0 x"; 256]), Ok(()));
    assert_eq!(receive_lines(&mut plugin, &mut buffers, &["recipient-stanza 0 x"]), Err(NoSpace));
}

/// Each machine's commands with a good and a bad form.
const FORMS: [(&str, &str, usize, Option<Refusal>); 24] = [
    ("recipient-v1", "add-recipient a", 0, None),
    ("recipient-v1", "add-recipient", 0, Some(WrongForm)),
    ("recipient-v1", "add-recipient a b", 0, Some(WrongForm)),
    ("recipient-v1", "add-recipient a", 1, Some(WrongForm)),
    ("identity-v1", "add-recipient", 1, None),
    ("recipient-v1", "add-identity a", 0, None),
    ("identity-v1", "add-identity a", 0, None),
    ("identity-v1", "add-identity", 0, Some(WrongForm)),
    ("identity-v1", "add-identity a b", 0, Some(WrongForm)),
    ("identity-v1", "add-identity a", 1, Some(WrongForm)),
    ("recipient-v1", "wrap-file-key", 16, None),
    ("recipient-v1", "wrap-file-key a", 16, Some(WrongForm)),
    ("recipient-v1", "wrap-file-key", 15, Some(WrongForm)),
    ("recipient-v1", "wrap-file-key", 17, Some(WrongForm)),
    ("identity-v1", "wrap-file-key a", 15, None),
    ("identity-v1", "recipient-stanza 0 x y z", 100, None),
    ("identity-v1", "recipient-stanza", 0, Some(WrongForm)),
    ("identity-v1", "recipient-stanza 01", 0, Some(WrongForm)),
    ("identity-v1", "recipient-stanza 01 x", 0, Some(BadIndex)),
    ("identity-v1", "recipient-stanza 4294967296 x", 0, Some(BadIndex)),
    ("recipient-v1", "recipient-stanza 01 x", 0, None),
    ("identity-v1", "done", 0, None),
    ("identity-v1", "done a", 0, Some(WrongForm)),
    ("identity-v1", "done", 1, Some(WrongForm)),
];

#[test]
fn forms_of_commands() {
    for (machine, arguments, body, refusal) in FORMS {
        assert_eq!(received(machine, arguments, &vec![7; body]).err(), refusal, "{machine} {arguments}");
        assert_eq!(sent(machine, arguments, &vec![7; body]).err(), refusal, "{machine} {arguments}");
    }
}

#[test]
fn commands_by_machine() {
    assert_eq!(received("recipient-v1", "add-recipient a", b""), Ok(Command::AddRecipient));
    assert_eq!(received("identity-v1", "add-recipient a", b""), Ok(Command::Other));
    assert_eq!(received("identity-v1", "recipient-stanza 0 a", b""), Ok(Command::RecipientStanza));
    assert_eq!(received("recipient-v1", "recipient-stanza 0 a", b""), Ok(Command::Other));
    assert_eq!(received("recipient-v1", "Done a", b"b"), Ok(Command::Other));
}

#[test]
fn payloads_and_marks() {
    let (mut plugin, mut buffers) = plugin("identity-v1");
    let identity = "AGE-PLUGIN-INTEROP-1QYQSZQG5Z25TP";
    let other = "AGE-PLUGIN-FIDO2-HMAC-1QYQXV6TYDUEZ66RDV93SQUSDAT";
    for text_of_entry in [identity, other, "age1interop1qyqszqg83syvs"] {
        let line = format!("add-identity {text_of_entry}");
        assert_eq!(receive_lines(&mut plugin, &mut buffers, &[&line]), Ok(()));
    }
    let stanza = text("recipient-stanza 5 tag a b", b"body");
    assert!(receive(&mut plugin, &mut buffers, &stanza).is_ok());
    let tables = plugin.session().tables();
    let valid = |number: usize| tables.of(Kind::Identity)[number].detail == Detail::Text { fault: None };
    assert_eq!([valid(0), valid(1), valid(2)], [true, false, false]);
    assert_eq!(plugin.session().entry(bech32::Kind::Identity, 1, &buffers), other.as_bytes());
    assert_eq!(plugin.session().entry(bech32::Kind::Identity, 3, &buffers), b"");
    assert_eq!(plugin.session().entry(bech32::Kind::Recipient, 0, &buffers), b"");
    assert_eq!(tables.payload(Kind::Header, 0, &buffers), b"tag a b\nbody");
    let detail = Detail::Header { file: 5, finding: Finding::Unknown };
    assert_eq!(tables.of(Kind::Header)[0].detail, detail);
}

#[test]
fn the_plugins_own_stanzas_are_checked() {
    let mut plugin = Plugin::open(b"identity-v1", b"fido2-hmac").unwrap();
    let mut buffers = Buffers::zeros(LENGTHS);
    let good = format!("recipient-stanza 0 fido2-hmac {} {}", "A".repeat(43), "A".repeat(16));
    for (line, body) in [(good.as_str(), 32), (good.as_str(), 31), ("recipient-stanza 0 X25519 a", 32)] {
        assert!(receive(&mut plugin, &mut buffers, &text(line, &vec![0; body])).is_ok());
    }
    let findings = [Finding::Conforming, Finding::Nonconforming, Finding::Unknown];
    for (entry, finding) in plugin.session().tables().of(Kind::Header).iter().zip(findings) {
        assert_eq!(entry.detail, Detail::Header { file: 0, finding });
    }
}

#[test]
fn faults_of_the_text() {
    for (text, refusal) in
        [(b"-> a  b\n\n".to_vec(), NotAStanza), ([b"-> ".to_vec(), vec![b'a'; 9_000]].concat(), TooLong)]
    {
        let (mut plugin, mut buffers) = plugin("recipient-v1");
        assert_eq!(receive(&mut plugin, &mut buffers, &text), Err(refusal));
        assert_eq!(receive(&mut plugin, &mut buffers, b"-> done\n\n"), Err(SessionOver));
        assert_eq!(plugin.session().phase(), Phase::Closed);
    }
}

#[test]
fn done_ends_phase_one_at_both_ends() {
    let (mut plugin, mut buffers) = plugin("recipient-v1");
    assert_eq!(receive_lines(&mut plugin, &mut buffers, &["done"]), Ok(()));
    assert_eq!(receive(&mut plugin, &mut buffers, b"not looked at"), Err(OutOfTurn));
    assert_eq!(plugin.session().phase(), Phase::Two);

    let (mut client, mut buffers) = client("recipient-v1");
    assert_eq!(client.send(b"done", b"", &mut buffers, &mut [0; 9]), Ok(9));
    assert_eq!(client.send(b"", b"", &mut buffers, &mut []), Err(OutOfTurn));
    assert_eq!(client.session().phase(), Phase::Two);
}

#[test]
fn buffers_exactly_long_enough_and_one_byte_short() {
    for (machine, line, body, kind, len) in [
        ("recipient-v1", "add-recipient abc", 0, Kind::Recipient, 3),
        ("recipient-v1", "add-identity abc", 0, Kind::Identity, 3),
        ("recipient-v1", "wrap-file-key", 16, Kind::FileKey, 16),
        ("identity-v1", "recipient-stanza 0 ab", 5, Kind::Header, 8),
    ] {
        let text = text(line, &vec![0; body]);
        for (len, refusal) in [(len, None), (len - 1, Some(NoSpace))] {
            let mut lens = [0; KINDS];
            lens[kind as usize] = len;
            let (mut plugin, _) = plugin(machine);
            assert_eq!(receive(&mut plugin, &mut Buffers::zeros(lens), &text).err(), refusal, "{line}");
            let (mut client, _) = client(machine);
            let sent = client.send(line.as_bytes(), &vec![0; body], &mut Buffers::zeros(lens), &mut [0; 99]);
            assert_eq!(sent.err(), refusal, "{line}");
        }
    }
}

#[test]
fn what_is_sent_is_received_alike() {
    let (mut client, mut client_buffers) = client("identity-v1");
    let (mut plugin, mut plugin_buffers) = plugin("identity-v1");
    for (line, body) in [
        ("add-identity AGE-PLUGIN-INTEROP-1QYQSZQG5Z25TP", 0),
        ("grease 1 2", 30),
        ("add-recipient unknown", 0),
        ("recipient-stanza 1 X25519 a", 32),
        ("recipient-stanza 4 interop", 48),
        ("done", 0),
    ] {
        let mut out = vec![0; 500];
        let len = client.send(line.as_bytes(), &vec![3; body], &mut client_buffers, &mut out).unwrap();
        receive(&mut plugin, &mut plugin_buffers, &out[..len]).unwrap();
        assert_eq!(client.session(), plugin.session());
        assert_eq!(client_buffers, plugin_buffers);
    }
}

#[test]
fn what_can_not_be_written() {
    for arguments in ["", " ", "add-recipient  a", "add-recipient a ", "done\n", "done\0", " done"] {
        assert_eq!(sent("recipient-v1", arguments, b""), Err(Unwritable), "{arguments:?}");
    }
    assert_eq!(sent("recipient-v1", "grease", &vec![0; 7_000]), Err(Unwritable));
    // 17 before 4.
    assert_eq!(sent("recipient-v1", "add-recipient ", b"body"), Err(Unwritable));
}

#[test]
fn an_output_buffer_too_short_comes_last() {
    let (mut client, mut buffers) = client("recipient-v1");
    let mut send =
        |line: &str, out: usize| client.send(line.as_bytes(), b"", &mut buffers, &mut vec![0; out]);
    assert_eq!(send("done a", 0), Err(WrongForm));
    assert_eq!(send("done", 8), Err(OutputTooShort));
    assert_eq!(send("add-recipient abc", 21), Err(OutputTooShort));
    assert_eq!(send("add-recipient abc", 22), Ok(22));
    assert_eq!(send("grease", 10), Err(OutputTooShort));
    assert_eq!(client.session().tables().of(Kind::Recipient).len(), 1);
    let mut none = Buffers::zeros([0; KINDS]);
    assert_eq!(client.send(b"add-recipient abc", b"", &mut none, &mut []), Err(NoSpace));
}

#[test]
fn a_falling_index_comes_before_a_full_buffer() {
    let (mut plugin, mut buffers) = plugin("identity-v1");
    assert_eq!(receive_lines(&mut plugin, &mut buffers, &["recipient-stanza 3 x"]), Ok(()));
    buffers.resize([0; KINDS]);
    let mut same = plugin.clone();
    assert_eq!(receive_lines(&mut plugin, &mut buffers, &["recipient-stanza 2 x"]), Err(IndexFalls));
    assert_eq!(receive_lines(&mut same, &mut buffers, &["recipient-stanza 3 x"]), Err(NoSpace));
}
