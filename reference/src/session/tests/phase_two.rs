//! Phase two at both ends: each rule and each refusal, and what a refusal leaves behind.

use super::super::*;
use super::{text, LENGTHS};
use phase_two::Command;
use Refusal::{
    BadIndex, HeldBack, NamesNothing, NoSpace, NotAStanza, OutOfTurn, OutputTooShort, SecondKey, SessionOver,
    TooLong, TooManyStanzas, UnfitResponse, Unwritable, WorkAndError, WrongForm,
};

pub(super) const RECIPIENT: &str = "recipient-v1";
pub(super) const IDENTITY: &str = "identity-v1";
pub(super) const MACHINES: [&str; 2] = [RECIPIENT, IDENTITY];

const VALID_RECIPIENT: &str = "add-recipient age1interop1qyqszqg83syvs";
const VALID_IDENTITY: &str = "add-identity AGE-PLUGIN-INTEROP-1QYQSZQG5Z25TP";

/// A command: all its arguments, and the length of its body.
pub(super) type Line<'a> = (&'a str, usize);

/// Two recipients or identities, two files.
pub(super) fn phase_one(machine: &str) -> Vec<Line<'static>> {
    match machine {
        RECIPIENT => {
            vec![(VALID_RECIPIENT, 0), (VALID_IDENTITY, 0), ("wrap-file-key", 16), ("wrap-file-key", 16)]
        }
        _ => vec![(VALID_IDENTITY, 0), ("recipient-stanza 3 a", 0), ("recipient-stanza 5 b", 0)],
    }
}

/// A phase one of fido2-hmac: the stanza of file 0 conforms, that of file 1 does not, that of file 2 is unknown.
fn findings() -> Vec<Line<'static>> {
    vec![
        ("recipient-stanza 0 fido2-hmac AAAAAAAAAAAAAAAAAAAAAAAAAAAAAAAAAAAAAAAAAAA AAAAAAAAAAAAAAAA", 32),
        ("recipient-stanza 1 fido2-hmac", 0),
        ("recipient-stanza 2 X25519", 0),
    ]
}

fn body_of(len: usize) -> Vec<u8> {
    vec![b'b'; len]
}

/// A client that has sent this phase one.
pub(super) fn client_after(machine: &str, plugin: &str, screen: bool, phase: &[Line]) -> (Client, Buffers) {
    let mut client = Client::open_with(machine.as_bytes(), plugin.as_bytes(), screen).unwrap();
    let mut buffers = Buffers::zeros(LENGTHS);
    for &(line, body) in phase.iter().chain(&[("done", 0)]) {
        client.send(line.as_bytes(), &body_of(body), &mut buffers, &mut [0; 200]).unwrap();
    }
    (client, buffers)
}

pub(super) fn client(machine: &str) -> (Client, Buffers) {
    client_after(machine, "interop", true, &phase_one(machine))
}

/// A plugin that has received this phase one.
pub(super) fn plugin_after(machine: &str, plugin: &str, phase: &[Line]) -> (Plugin, Buffers) {
    let mut plugin = Plugin::open(machine.as_bytes(), plugin.as_bytes()).unwrap();
    let mut buffers = Buffers::zeros(LENGTHS);
    for &(line, body) in phase.iter().chain(&[("done", 0)]) {
        plugin.chunk(&text(line, &body_of(body)), &mut buffers, &mut []).accepted().unwrap();
    }
    (plugin, buffers)
}

pub(super) fn plugin(machine: &str) -> (Plugin, Buffers) {
    plugin_after(machine, "interop", &phase_one(machine))
}

/// What a client says to one command, and that a refusal changes no table, buffer or output.
fn hear(client: &mut Client, buffers: &mut Buffers, (line, body): Line) -> Result<Vec<u8>, Refusal> {
    let before = (client.session.tables.clone(), buffers.clone(), vec![0; 99]);
    let mut out = vec![0; 99];
    let heard = client.chunk(&text(line, &body_of(body)), buffers, &mut out).accepted();
    if heard.is_err() {
        assert_eq!((client.session.tables.clone(), buffers.clone(), out.clone()), before, "{line}");
    }
    heard.map(|heard| out[..heard.written].to_vec())
}

/// How much a reply writes; no session here has anything kept back.
fn reply(client: &mut Client, reply: Response, body: &[u8], out: &mut [u8]) -> Result<usize, Refusal> {
    let replied = client.reply(reply, body, &mut Buffers::zeros([0; KINDS]), out);
    assert_eq!((replied.count, replied.last), (0, None));
    replied.accepted().map(|replied| replied.written)
}

/// Which response a plugin receives, and how long its body is.
fn respond(plugin: &mut Plugin, response: &[u8], out: &mut [u8]) -> Result<(Response, usize), Refusal> {
    let received = plugin.chunk(response, &mut Buffers::zeros([0; KINDS]), out).accepted()?;
    match received.last {
        Some(What::Response(response)) => Ok((response, received.written)),
        last => panic!("{last:?}"),
    }
}

/// Hears the command, and has the host reply fail where it waits.
fn hear_out(client: &mut Client, buffers: &mut Buffers, line: Line) -> Result<(), Refusal> {
    hear(client, buffers, line)?;
    if client.session.awaits.is_some() {
        reply(client, Response::Fail, b"", &mut [0; 99])?;
    }
    Ok(())
}

/// What a plugin says to sending one command, and that a refusal changes nothing.
fn say(plugin: &mut Plugin, buffers: &mut Buffers, (line, body): Line) -> Result<(), Refusal> {
    let before = (plugin.clone(), buffers.clone(), vec![0; 9_000]);
    let mut out = vec![0; 9_000];
    let said = plugin.send(line.as_bytes(), &body_of(body), buffers, &mut out);
    if said.is_err() {
        assert_eq!((plugin.clone(), buffers.clone(), out), before, "{line}");
    }
    said.map(|_| ())
}

/// Sends the command, and receives a response that fits.
fn say_out(plugin: &mut Plugin, buffers: &mut Buffers, line: Line) -> Result<(), Refusal> {
    say(plugin, buffers, line)?;
    if let Some(command) = plugin.session.awaits {
        let response = Response::ALL.into_iter().find(|response| response.fits(command, 0)).unwrap();
        respond(plugin, &response.text(b"").unwrap(), &mut []).unwrap();
    }
    Ok(())
}

/// Both ends say the same to the commands, in order: each is accepted, up to the last, which says this.
fn both_say(machine: &str, phase: &[Line], commands: &[Line], last: Result<(), Refusal>) {
    let (mut client, mut client_buffers) = client_after(machine, "interop", true, phase);
    let (mut plugin, mut plugin_buffers) = plugin_after(machine, "interop", phase);
    for (at, &line) in commands.iter().enumerate() {
        let expected = if at + 1 == commands.len() { last } else { Ok(()) };
        assert_eq!(hear_out(&mut client, &mut client_buffers, line), expected, "hearing {line:?}");
        assert_eq!(say_out(&mut plugin, &mut plugin_buffers, line), expected, "saying {line:?}");
        assert_eq!(client.session.tables, plugin.session.tables);
        assert_eq!(client_buffers, plugin_buffers);
    }
    let closed = if last.is_err() { Phase::Closed } else { plugin.session.phase };
    assert_eq!(client.session.phase, closed);
    assert_ne!(plugin.session.phase, Phase::Closed);
}

/// Each machine's commands with good and bad forms.
const FORMS: [(&str, &str, usize, Option<Refusal>); 58] = [
    (RECIPIENT, "msg", 0, None),
    (RECIPIENT, "msg", 100, None),
    (IDENTITY, "msg a", 0, Some(WrongForm)),
    (IDENTITY, "confirm", 5, Some(WrongForm)),
    (IDENTITY, "confirm eWVz", 0, None),
    (RECIPIENT, "confirm eWVz bm8", 5, None),
    (RECIPIENT, "confirm eWVz bm8 eWVz", 5, Some(WrongForm)),
    (RECIPIENT, "confirm eWVzA", 5, Some(WrongForm)),
    (RECIPIENT, "confirm eWVz bm9", 5, Some(WrongForm)),
    (RECIPIENT, "confirm eWVz bm8=", 5, Some(WrongForm)),
    (RECIPIENT, "request-public", 9, None),
    (IDENTITY, "request-public a", 9, Some(WrongForm)),
    (IDENTITY, "request-secret", 0, None),
    (RECIPIENT, "request-secret a", 0, Some(WrongForm)),
    (RECIPIENT, "recipient-stanza 0 a", 0, None),
    (RECIPIENT, "recipient-stanza 1 a b c", 60, None),
    (RECIPIENT, "recipient-stanza", 0, Some(WrongForm)),
    (RECIPIENT, "recipient-stanza 0", 0, Some(WrongForm)),
    (RECIPIENT, "recipient-stanza 01", 0, Some(WrongForm)),
    (RECIPIENT, "recipient-stanza 01 a", 0, Some(BadIndex)),
    (RECIPIENT, "recipient-stanza 4294967296 a", 0, Some(BadIndex)),
    (RECIPIENT, "recipient-stanza 4294967295 a", 0, Some(NamesNothing)),
    (RECIPIENT, "recipient-stanza 2 a", 0, Some(NamesNothing)),
    (IDENTITY, "recipient-stanza 01", 0, None),
    (IDENTITY, "file-key 3", 16, None),
    (IDENTITY, "file-key", 16, Some(WrongForm)),
    (IDENTITY, "file-key 3 a", 16, Some(WrongForm)),
    (IDENTITY, "file-key 3", 15, Some(WrongForm)),
    (IDENTITY, "file-key 03", 17, Some(WrongForm)),
    (IDENTITY, "file-key 03", 16, Some(BadIndex)),
    (IDENTITY, "file-key 0", 16, Some(NamesNothing)),
    (IDENTITY, "file-key 4", 16, Some(NamesNothing)),
    (RECIPIENT, "file-key 03", 15, None),
    (RECIPIENT, "error internal", 0, None),
    (IDENTITY, "error internal", 100, None),
    (IDENTITY, "error", 0, Some(WrongForm)),
    (IDENTITY, "error internal 0", 0, Some(WrongForm)),
    (IDENTITY, "error external", 0, Some(WrongForm)),
    (IDENTITY, "error identity", 0, Some(WrongForm)),
    (IDENTITY, "error identity 0 0", 0, Some(WrongForm)),
    (IDENTITY, "error identity 0", 0, None),
    (IDENTITY, "error identity 00", 0, Some(BadIndex)),
    (IDENTITY, "error identity 1", 0, Some(NamesNothing)),
    (RECIPIENT, "error recipient 0", 0, None),
    (RECIPIENT, "error recipient 1", 0, Some(NamesNothing)),
    (RECIPIENT, "error recipient x", 0, Some(BadIndex)),
    (IDENTITY, "error recipient x", 0, Some(WrongForm)),
    (RECIPIENT, "error stanza 0 0", 0, Some(WrongForm)),
    (IDENTITY, "error stanza 3", 0, Some(WrongForm)),
    (IDENTITY, "error stanza 3 0 0", 0, Some(WrongForm)),
    (IDENTITY, "error stanza 9 00", 0, Some(BadIndex)),
    (IDENTITY, "error stanza 00 9", 0, Some(BadIndex)),
    (IDENTITY, "error stanza 3 2", 0, Some(NamesNothing)),
    (IDENTITY, "error stanza 3 1", 0, Some(NamesNothing)),
    (IDENTITY, "error stanza 5 1", 0, Some(NamesNothing)),
    (IDENTITY, "done a", 0, Some(WrongForm)),
    (IDENTITY, "done", 1, Some(WrongForm)),
    (RECIPIENT, "done", 0, None),
];

#[test]
fn forms_of_commands() {
    for (machine, line, body, refusal) in FORMS {
        both_say(machine, &phase_one(machine), &[(line, body)], refusal.map_or(Ok(()), Err));
    }
}

#[test]
fn commands_by_machine() {
    for (machine, word, command) in [
        (RECIPIENT, "recipient-stanza", Command::RecipientStanza),
        (IDENTITY, "recipient-stanza", Command::Other),
        (RECIPIENT, "file-key", Command::Other),
        (IDENTITY, "file-key", Command::FileKey),
        (RECIPIENT, "Msg", Command::Other),
        (IDENTITY, "msg-", Command::Other),
        (IDENTITY, "add-identity", Command::Other),
        (IDENTITY, "done", Command::Done),
    ] {
        let machine = Machine::named(machine.as_bytes()).unwrap();
        assert_eq!(Command::named(machine, word.as_bytes()), command, "{word}");
    }
}

#[test]
fn the_client_answers_the_last_four_rows_at_once() {
    for machine in MACHINES {
        let (mut client, mut buffers) = client(machine);
        let work = if machine == RECIPIENT { ("recipient-stanza 0 a", 4) } else { ("file-key 3", 16) };
        assert_eq!(hear(&mut client, &mut buffers, work), Ok(b"-> ok\n\n".to_vec()));
        assert_eq!(hear(&mut client, &mut buffers, ("any other", 4)), Ok(b"-> unsupported\n\n".to_vec()));
        if machine == IDENTITY {
            let error = ("error identity 0", 4);
            assert_eq!(hear(&mut client, &mut buffers, error), Ok(b"-> ok\n\n".to_vec()));
        }
        assert_eq!(client.session.awaits, None);
        assert_eq!(hear(&mut client, &mut buffers, ("done", 0)), Ok(vec![]));
        assert_eq!(client.session.phase, Phase::Ended);
    }
}

const FOR_THE_HOST: [Line; 4] =
    [("msg", 4), ("confirm eWVz", 4), ("request-public", 4), ("request-secret", 0)];

#[test]
fn the_client_waits_for_its_host() {
    for line in FOR_THE_HOST {
        let (mut client, mut buffers) = client(RECIPIENT);
        assert_eq!(hear(&mut client, &mut buffers, line), Ok(vec![]));
        assert_eq!(hear(&mut client, &mut buffers, line), Err(OutOfTurn));
        let mut out = [0; 9];
        assert_eq!(reply(&mut client, Response::Fail, b"", &mut out), Ok(9));
        assert_eq!(&out, b"-> fail\n\n");
        assert_eq!(reply(&mut client, Response::Fail, b"", &mut out), Err(OutOfTurn));
        assert_eq!(hear(&mut client, &mut buffers, line), Ok(vec![]));
    }
}

#[test]
fn without_a_screen_it_answers_fail_at_once() {
    for line in FOR_THE_HOST {
        let (mut client, mut buffers) = client_after(RECIPIENT, "interop", false, &phase_one(RECIPIENT));
        let stanza = text(line.0, &body_of(line.1));
        assert_eq!(client.chunk(&stanza, &mut buffers, &mut [0; 8]).refusal, Some(OutputTooShort));
        assert_eq!(hear(&mut client, &mut buffers, line), Ok(b"-> fail\n\n".to_vec()));
        assert_eq!(client.session.awaits, None);
    }
    let (mut client, mut buffers) = client_after(RECIPIENT, "interop", false, &phase_one(RECIPIENT));
    assert_eq!(client.chunk(&text("msg a", b""), &mut buffers, &mut []).refusal, Some(WrongForm));
}

/// Opening without a word is opening without a screen.
#[test]
fn a_client_that_is_not_told_of_a_screen_has_none() {
    for machine in MACHINES {
        let untold = Client::open(machine.as_bytes(), b"interop");
        assert_eq!(untold, Client::open_with(machine.as_bytes(), b"interop", false));
        assert_ne!(untold, Client::open_with(machine.as_bytes(), b"interop", true));
    }
}

/// Every command with every response: 12 leaves a host's reply awaited, and closes a plugin's session.
#[test]
fn responses_that_fit() {
    let commands = [
        (RECIPIENT, "msg", 0, "ok, fail"),
        (RECIPIENT, "confirm eWVz", 0, "yes, no, fail"),
        (IDENTITY, "confirm eWVz bm8", 0, "yes, no, fail"),
        (IDENTITY, "request-public", 0, "ok, fail"),
        (IDENTITY, "request-secret", 0, "ok, fail"),
        (RECIPIENT, "recipient-stanza 0 a", 0, "ok"),
        (IDENTITY, "file-key 3", 16, "ok"),
        (IDENTITY, "error internal", 0, "ok"),
        (RECIPIENT, "file-key 3", 16, "unsupported"),
    ];
    let words = ["ok", "yes", "no", "fail", "unsupported"];
    for (machine, line, body, fitting) in commands {
        for (word, response) in words.into_iter().zip(Response::ALL) {
            let fits = fitting.split(", ").any(|fitting| fitting == word);
            let expected = if fits { None } else { Some(UnfitResponse) };
            let stanza = response.text(b"").unwrap();
            let (mut plugin, mut buffers) = plugin(machine);
            say(&mut plugin, &mut buffers, (line, body)).unwrap();
            assert_eq!(respond(&mut plugin, &stanza, &mut []).err(), expected, "{line} {word}");
            assert_eq!(plugin.session.awaits, None);
            assert_eq!(plugin.session.phase, if fits { Phase::Two } else { Phase::Closed });

            let (mut client, mut buffers) = client(machine);
            let at_once = hear(&mut client, &mut buffers, (line, body)).unwrap();
            if client.session.awaits.is_none() {
                assert_eq!(at_once == stanza, fits);
                assert_eq!(reply(&mut client, response, b"", &mut [0; 99]), Err(OutOfTurn));
                continue;
            }
            assert_eq!(reply(&mut client, response, b"", &mut [0; 99]).err(), expected, "{line} {word}");
            assert_eq!(client.session.awaits.is_some(), !fits);
            assert_eq!(client.session.phase, Phase::Two);
        }
    }
}

#[test]
fn ok_no_means_no() {
    let (mut plugin, mut buffers) = plugin(RECIPIENT);
    say(&mut plugin, &mut buffers, ("confirm eWVz", 0)).unwrap();
    assert_eq!(respond(&mut plugin, b"-> ok no\n\n", &mut []), Ok((Response::No, 0)));
}

#[test]
fn only_ok_to_a_request_carries_a_body() {
    for (line, response, fits) in [
        ("request-public", Response::Ok, true),
        ("request-secret", Response::Ok, true),
        ("request-secret", Response::Fail, false),
        ("msg", Response::Ok, false),
        ("confirm eWVz", Response::Yes, false),
        ("grease", Response::Unsupported, false),
    ] {
        let expected = if fits { None } else { Some(UnfitResponse) };
        let (mut plugin, mut buffers) = plugin(RECIPIENT);
        say(&mut plugin, &mut buffers, (line, 0)).unwrap();
        let stanza = response.text(b"body").unwrap();
        let mut out = [0; 5];
        assert_eq!(respond(&mut plugin, &stanza, &mut out).err(), expected, "{line}");
        assert_eq!(&out, if fits { b"body\0" } else { &[0; 5] });
        if line != "grease" {
            let (mut client, mut buffers) = client(RECIPIENT);
            hear(&mut client, &mut buffers, (line, 0)).unwrap();
            assert_eq!(reply(&mut client, response, b"body", &mut [0; 99]).err(), expected, "{line}");
        }
    }
}

#[test]
fn a_response_is_read_as_any_stanza() {
    let long = [b"-> ok\n".to_vec(), vec![b'a'; 9_000]].concat();
    let long_line = [b"-> ".to_vec(), vec![b'a'; 9_000]].concat();
    for (stanza, refusal) in [
        (b"-> ok  no\n\n".as_slice(), NotAStanza),
        (&long, NotAStanza),
        (&long_line, TooLong),
        (b"-> ok maybe\n\n", UnfitResponse),
    ] {
        let (mut plugin, mut buffers) = plugin(RECIPIENT);
        say(&mut plugin, &mut buffers, ("confirm eWVz", 0)).unwrap();
        assert_eq!(respond(&mut plugin, stanza, &mut []), Err(refusal));
        assert_eq!((plugin.session.phase, plugin.session.awaits), (Phase::Closed, None));
    }
}

#[test]
fn faults_of_a_commands_text() {
    let long = [b"-> ".to_vec(), vec![b'a'; 9_000]].concat();
    for (stanza, refusal) in [(b"-> msg \n\n".as_slice(), NotAStanza), (&long, TooLong)] {
        let (mut client, mut buffers) = client(RECIPIENT);
        assert_eq!(client.chunk(stanza, &mut buffers, &mut [0; 99]).refusal, Some(refusal));
        assert_eq!(client.session.phase, Phase::Closed);
    }
}

#[test]
fn a_short_output_buffer_leaves_all_as_it_was() {
    let (mut client, mut buffers) = client(IDENTITY);
    let before = (client.clone(), buffers.clone());
    let key = text("file-key 3", &body_of(16));
    assert_eq!(client.chunk(&key, &mut buffers, &mut [0; 6]).refusal, Some(OutputTooShort));
    assert_eq!((client.clone(), buffers.clone()), before);
    assert_eq!(client.chunk(&key, &mut buffers, &mut [0; 7]).accepted().map(|heard| heard.written), Ok(7));
    assert_eq!(client.chunk(b"-> x\n\n", &mut buffers, &mut [0; 15]).refusal, Some(OutputTooShort));

    let (mut plugin, mut buffers) = plugin(IDENTITY);
    let before = (plugin.clone(), buffers.clone());
    let mut send =
        |plugin: &mut Plugin, out| plugin.send(b"request-secret", b"", &mut buffers, &mut vec![0; out]);
    assert_eq!(send(&mut plugin, 18), Err(OutputTooShort));
    assert_eq!(plugin, before.0);
    assert_eq!(send(&mut plugin, 19), Ok(19));
    let ok = text("ok", b"1234");
    assert_eq!(respond(&mut plugin, &ok, &mut [0; 3]), Err(OutputTooShort));
    assert_eq!(plugin.session.awaits, Some(Command::RequestSecret));
    assert_eq!(respond(&mut plugin, &ok, &mut [0; 4]), Ok((Response::Ok, 4)));
}

/// The order for a host's reply is 12, 17, 15.
#[test]
fn replies_that_can_not_be_written() {
    let (mut client, mut buffers) = client(IDENTITY);
    hear(&mut client, &mut buffers, ("request-secret", 0)).unwrap();
    // "-> ok" and its LF are 6 bytes; 8,186 are left: 125 whole lines of 65 bytes, and 61.
    let most = 125 * 48 + 45;
    for (response, body, out, refusal) in [
        (Response::Fail, most + 1, 0, UnfitResponse),
        (Response::Yes, 0, 0, UnfitResponse),
        (Response::Ok, most + 1, 0, Unwritable),
        (Response::Ok, 10_000, 9_000, Unwritable),
        (Response::Ok, most, 8_191, OutputTooShort),
        (Response::Fail, 0, 8, OutputTooShort),
    ] {
        let mut out = vec![0; out];
        assert_eq!(reply(&mut client, response, &body_of(body), &mut out), Err(refusal));
        assert!(out.iter().all(|&byte| byte == 0));
        assert_eq!(client.session.awaits, Some(Command::RequestSecret));
    }
    let mut out = vec![0; 9_000];
    let len = reply(&mut client, Response::Ok, &body_of(most), &mut out).unwrap();
    assert!(len <= 8_192 && stanza::read(&out).unwrap().body_len() == most);
}

#[test]
fn one_key_for_a_file() {
    let one = phase_one(IDENTITY);
    both_say(IDENTITY, &one, &[("file-key 3", 16), ("file-key 5", 16), ("done", 0)], Ok(()));
    both_say(IDENTITY, &one, &[("file-key 3", 16), ("file-key 3", 16)], Err(SecondKey));
}

#[test]
fn no_more_stanzas_than_recipients_and_identities() {
    let one = phase_one(RECIPIENT);
    let stanza = ("recipient-stanza 0 a", 1);
    both_say(RECIPIENT, &one, &[stanza, ("recipient-stanza 1 a", 1), stanza], Ok(()));
    both_say(RECIPIENT, &one, &[stanza, stanza, stanza], Err(TooManyStanzas));
    both_say(RECIPIENT, &[("wrap-file-key", 16)], &[stanza], Err(TooManyStanzas));
    // 10 before 11.
    both_say(RECIPIENT, &[("wrap-file-key", 16)], &[("error internal", 0), stanza], Err(TooManyStanzas));
}

#[test]
fn work_and_errors_exclude_each_other() {
    let stanza = ("recipient-stanza 0 a", 1);
    let one = phase_one(RECIPIENT);
    for error in [("error internal", 0), ("error recipient 0", 3), ("error identity 0", 3)] {
        both_say(RECIPIENT, &one, &[error, error, ("msg", 0), stanza], Err(WorkAndError));
        both_say(RECIPIENT, &one, &[stanza, error], Err(WorkAndError));
    }
    let one = phase_one(IDENTITY);
    let (three, five) = (("file-key 3", 16), ("file-key 5", 16));
    let others = [("error internal", 0), three, ("error identity 0", 3), five, ("error internal", 0)];
    both_say(IDENTITY, &one, &others, Ok(()));
}

/// Under interop each stanza is unknown, so the plugin end is asked under fido2-hmac.
#[test]
fn an_error_for_a_stanza_excludes_its_files_key() {
    let one = findings();
    let key = |file: u32| (format!("file-key {file}"), 16);
    for (first, second, expected) in [
        ("error stanza 0 0".to_string(), key(0).0, Err(WorkAndError)),
        (key(0).0, "error stanza 0 0".to_string(), Err(WorkAndError)),
        ("error stanza 1 0".to_string(), key(0).0, Ok(())),
        (key(0).0, "error stanza 1 0".to_string(), Ok(())),
    ] {
        let body = |line: &str| if line.starts_with("file-key") { 16 } else { 0 };
        let (mut client, mut buffers) = client_after(IDENTITY, "fido2-hmac", true, &one);
        assert_eq!(hear_out(&mut client, &mut buffers, (&first, body(&first))), Ok(()));
        assert_eq!(hear_out(&mut client, &mut buffers, (&second, body(&second))), expected);
        let (mut plugin, mut buffers) = plugin_after(IDENTITY, "fido2-hmac", &one);
        assert_eq!(say_out(&mut plugin, &mut buffers, (&first, body(&first))), Ok(()));
        assert_eq!(say_out(&mut plugin, &mut buffers, (&second, body(&second))), expected);
    }
}

/// While an entry is invalid there is no work; done comes after each error owed; the mark stays.
#[test]
fn the_plugin_is_held_back_by_invalid_entries() {
    let one = [("add-recipient x", 0), (VALID_IDENTITY, 0), ("add-identity y", 0), ("wrap-file-key", 16)];
    let (mut plugin, mut buffers) = plugin_after(RECIPIENT, "interop", &one);
    let mut says = |line, body| say_out(&mut plugin, &mut buffers, (line, body));
    assert_eq!(says("recipient-stanza 0 a", 0), Err(HeldBack));
    assert_eq!(says("done", 0), Err(HeldBack));
    assert_eq!(says("msg", 0), Ok(()));
    assert_eq!(says("grease", 0), Ok(()));
    assert_eq!(says("error identity 0", 0), Ok(()));
    assert_eq!(says("error recipient 0", 0), Ok(()));
    assert_eq!(says("done", 0), Err(HeldBack));
    // 11 before 19.
    assert_eq!(says("recipient-stanza 0 a", 0), Err(WorkAndError));
    assert_eq!(says("error identity 1", 0), Ok(()));
    assert_eq!(says("done", 0), Ok(()));

    let one = [("add-identity x", 0), ("recipient-stanza 0 a", 0)];
    let (mut plugin, mut buffers) = plugin_after(IDENTITY, "interop", &one);
    assert_eq!(say(&mut plugin, &mut buffers, ("file-key 0", 16)), Err(HeldBack));
    assert_eq!(say_out(&mut plugin, &mut buffers, ("error identity 0", 0)), Ok(()));
    assert_eq!(say(&mut plugin, &mut buffers, ("file-key 0", 16)), Err(HeldBack));
    assert_eq!(say(&mut plugin, &mut buffers, ("done", 0)), Ok(()));
}

#[test]
fn the_plugin_is_held_back_by_nonconforming_stanzas() {
    let (mut plugin, mut buffers) = plugin_after(IDENTITY, "fido2-hmac", &findings());
    let mut says = |line, body| say_out(&mut plugin, &mut buffers, (line, body));
    assert_eq!(says("file-key 1", 16), Err(HeldBack));
    assert_eq!(says("file-key 0", 16), Ok(()));
    assert_eq!(says("file-key 2", 16), Ok(()));
    assert_eq!(says("done", 0), Err(HeldBack));
    assert_eq!(says("error internal", 0), Ok(()));
    assert_eq!(says("done", 0), Err(HeldBack));
    assert_eq!(says("error stanza 1 0", 0), Ok(()));
    // 11 before 19.
    assert_eq!(says("file-key 1", 16), Err(WorkAndError));
    assert_eq!(says("error stanza 2 0", 0), Err(WorkAndError));
    assert_eq!(says("done", 0), Ok(()));
}

#[test]
fn the_plugin_sends_no_error_for_an_unknown_stanza() {
    let (mut plugin, mut buffers) = plugin_after(IDENTITY, "fido2-hmac", &findings());
    assert_eq!(say(&mut plugin, &mut buffers, ("error stanza 2 0", 0)), Err(HeldBack));
    for line in ["error stanza 2 2", "error stanza 2 1", "error stanza 1 1", "error stanza 1 2"] {
        assert_eq!(say(&mut plugin, &mut buffers, (line, 0)), Err(NamesNothing));
    }
    assert_eq!(say(&mut plugin, &mut buffers, ("error stanza 0 0", 0)), Ok(()));
}

/// In error stanza f i, i counts the stanzas of file f: for what it names, for the unknown ones, and for the
/// errors owed.
#[test]
fn stanzas_are_numbered_within_their_file() {
    let faulty = |file: u32| format!("recipient-stanza {file} fido2-hmac");
    let (first, third) = (faulty(1), faulty(4));
    let one = [
        ("recipient-stanza 1 X25519", 0),
        (first.as_str(), 0),
        ("add-identity AGE-PLUGIN-FIDO2-HMAC-1QYQXV6TYDUEZ66RDV93SQUSDAT", 0),
        ("recipient-stanza 4 X25519", 0),
        ("grease", 0),
        ("recipient-stanza 4 X25519", 0),
        (third.as_str(), 0),
    ];
    for (line, refused) in [
        ("error stanza 1 0", None),
        ("error stanza 1 1", None),
        ("error stanza 1 2", Some(NamesNothing)),
        ("error stanza 4 2", None),
        ("error stanza 4 3", Some(NamesNothing)),
        ("error stanza 4 4", Some(NamesNothing)),
        ("error stanza 2 0", Some(NamesNothing)),
    ] {
        let (mut client, mut buffers) = client_after(IDENTITY, "fido2-hmac", true, &one);
        assert_eq!(hear(&mut client, &mut buffers, (line, 0)).err(), refused, "{line}");
        if refused.is_none() {
            let detail = client.session.tables.details(Kind::Error).next().unwrap();
            let Detail::Error { cause: Cause::Stanza { file, number } } = detail else { panic!("{line}") };
            assert_eq!(format!("error stanza {file} {number}"), line);
        }
    }
    let (mut plugin, mut buffers) = plugin_after(IDENTITY, "fido2-hmac", &one);
    let mut says = |line, body| say_out(&mut plugin, &mut buffers, (line, body));
    assert_eq!(says("error stanza 1 0", 0), Err(HeldBack));
    assert_eq!(says("error stanza 4 1", 0), Err(HeldBack));
    assert_eq!(says("error stanza 4 4", 0), Err(NamesNothing));
    assert_eq!(says("done", 0), Err(HeldBack));
    assert_eq!(says("error stanza 1 1", 0), Ok(()));
    assert_eq!(says("done", 0), Err(HeldBack));
    assert_eq!(says("error stanza 4 2", 0), Ok(()));
    assert_eq!(says("done", 0), Ok(()));
}

/// The client goes by no rule of the plugin end alone.
#[test]
fn the_client_takes_what_the_plugin_would_hold_back() {
    let (mut client, mut buffers) = client_after(IDENTITY, "fido2-hmac", true, &findings());
    for line in [("error stanza 2 0", 0), ("file-key 1", 16), ("done", 0)] {
        assert_eq!(hear_out(&mut client, &mut buffers, line), Ok(()));
    }
    let one = [("add-recipient x", 0), ("wrap-file-key", 16)];
    let (mut client, mut buffers) = client_after(RECIPIENT, "interop", true, &one);
    for line in [("recipient-stanza 0 a", 0), ("done", 0)] {
        assert_eq!(hear_out(&mut client, &mut buffers, line), Ok(()));
    }
}

#[test]
fn errors_have_384_slots() {
    let one = phase_one(IDENTITY);
    let mut errors = vec![("error identity 0", 0); 384];
    both_say(IDENTITY, &one, &errors, Ok(()));
    errors.push(("error internal", 0));
    both_say(IDENTITY, &one, &errors, Err(NoSpace));
}

#[test]
fn returned_stanzas_have_256_slots() {
    // Identities may repeat, recipients may not.
    let mut one = vec![(VALID_IDENTITY, 0); 63];
    one.push((VALID_RECIPIENT, 0));
    one.extend([("wrap-file-key", 16); 5]);
    let lines: Vec<String> = (0..257).map(|number| format!("recipient-stanza {} a", number / 64)).collect();
    let stanzas: Vec<Line> = lines.iter().map(|line| (line.as_str(), 0)).collect();
    both_say(RECIPIENT, &one, &stanzas[..256], Ok(()));
    both_say(RECIPIENT, &one, &stanzas, Err(NoSpace));
}

/// A 257th key would need a 257th header stanza.
#[test]
fn returned_keys_have_256_slots() {
    let headers: Vec<String> = (0..256).map(|file| format!("recipient-stanza {file} a")).collect();
    let keys: Vec<String> = (0..257).map(|file| format!("file-key {file}")).collect();
    let headers: Vec<Line> = headers.iter().map(|line| (line.as_str(), 0)).collect();
    let keys: Vec<Line> = keys.iter().map(|line| (line.as_str(), 16)).collect();
    both_say(IDENTITY, &headers, &keys[..256], Ok(()));
    both_say(IDENTITY, &headers, &keys, Err(NamesNothing));
}

#[test]
fn buffers_exactly_long_enough_and_one_byte_short() {
    for (machine, line, body, kind, len) in [
        (RECIPIENT, "recipient-stanza 0 a b", 7, Kind::Stanza, 11),
        (IDENTITY, "file-key 3", 16, Kind::Key, 16),
        (IDENTITY, "error internal", 9, Kind::Error, 9),
    ] {
        for (len, expected) in [(len, Ok(())), (len - 1, Err(NoSpace))] {
            let mut lens = [0; KINDS];
            lens[kind as usize] = len;
            let (mut client, _) = client(machine);
            assert_eq!(hear_out(&mut client, &mut Buffers::zeros(lens), (line, body)), expected, "{line}");
            let (mut plugin, _) = plugin(machine);
            assert_eq!(say_out(&mut plugin, &mut Buffers::zeros(lens), (line, body)), expected, "{line}");
        }
    }
}

/// What was kept counts, whatever is lent now: even an empty message.
#[test]
fn a_buffer_that_became_shorter() {
    let (mut client, mut buffers) = client(IDENTITY);
    assert_eq!(hear_out(&mut client, &mut buffers, ("error internal", 5)), Ok(()));
    buffers.resize([4; KINDS]);
    let mut same = client.clone();
    assert_eq!(hear_out(&mut client, &mut buffers, ("error internal", 0)), Err(NoSpace));
    buffers.resize([5; KINDS]);
    assert_eq!(hear_out(&mut same, &mut buffers, ("error internal", 0)), Ok(()));
}

/// What each call of a client says in its state; every one would be refused in its turn, too.
fn client_calls(client: &Client) -> [Refusal; 3] {
    let mut none = Buffers::zeros([0; KINDS]);
    [
        client.clone().send(b"", b"", &mut none, &mut []).unwrap_err(),
        client.clone().chunk(b"x", &mut none, &mut []).refusal.unwrap(),
        client.clone().reply(Response::Unsupported, &[0; 9_000], &mut none, &mut []).refusal.unwrap(),
    ]
}

#[test]
fn client_calls_out_of_turn() {
    let mut none = Buffers::zeros([0; KINDS]);
    let fresh = Client::open(b"recipient-v1", b"interop").unwrap();
    assert_eq!(client_calls(&fresh), [Unwritable, OutOfTurn, OutOfTurn]);
    let (client, _) = client(RECIPIENT);
    assert_eq!(client_calls(&client), [OutOfTurn, NotAStanza, OutOfTurn]);
    let mut waiting = client.clone();
    waiting.chunk(b"-> msg\n\n", &mut none, &mut []).accepted().unwrap();
    assert_eq!(client_calls(&waiting), [OutOfTurn, OutOfTurn, UnfitResponse]);
    let mut ended = client.clone();
    ended.chunk(b"-> done\n\n", &mut none, &mut []).accepted().unwrap();
    assert_eq!(client_calls(&ended), [SessionOver; 3]);
    let mut closed = client;
    closed.chunk(b"x", &mut none, &mut []).accepted().unwrap_err();
    assert_eq!(client_calls(&closed), [SessionOver; 3]);
}

/// What each call of a plugin says in its state; every one would be refused in its turn, too.
fn plugin_calls(plugin: &Plugin) -> [Refusal; 2] {
    let mut none = Buffers::zeros([0; KINDS]);
    [
        plugin.clone().chunk(b"x", &mut none, &mut []).refusal.unwrap(),
        plugin.clone().send(b"", b"", &mut none, &mut []).unwrap_err(),
    ]
}

#[test]
fn plugin_calls_out_of_turn() {
    let mut none = Buffers::zeros([0; KINDS]);
    let fresh = Plugin::open(b"recipient-v1", b"interop").unwrap();
    assert_eq!(plugin_calls(&fresh), [NotAStanza, OutOfTurn]);
    let (plugin, _) = plugin(RECIPIENT);
    assert_eq!(plugin_calls(&plugin), [OutOfTurn, Unwritable]);
    let mut waiting = plugin.clone();
    waiting.send(b"grease", b"", &mut none, &mut [0; 99]).unwrap();
    assert_eq!(plugin_calls(&waiting), [NotAStanza, OutOfTurn]);
    let mut ended = plugin.clone();
    ended.send(b"done", b"", &mut none, &mut [0; 9]).unwrap();
    assert_eq!(plugin_calls(&ended), [SessionOver; 2]);
    let mut closed = waiting;
    closed.chunk(b"x", &mut none, &mut []).accepted().unwrap_err();
    assert_eq!(plugin_calls(&closed), [SessionOver; 2]);
}

#[test]
fn what_can_not_be_sent() {
    let (mut plugin, mut buffers) = plugin(IDENTITY);
    for line in ["", " ", "msg ", "msg  a", "error\n", "confirm a\x7f", "file-key 03 "] {
        assert_eq!(say(&mut plugin, &mut buffers, (line, 4)), Err(Unwritable), "{line:?}");
    }
    assert_eq!(say(&mut plugin, &mut buffers, ("msg", 7_000)), Err(Unwritable));
    assert_eq!(say(&mut plugin, &mut buffers, ("msg a", 7_000)), Err(Unwritable));
    assert_eq!(plugin.session.awaits, None);
}

/// At the plugin end 4, 5, 6, 9, 10, 11, 19, 8, 15, each before those behind it.
#[test]
fn order_at_sending() {
    let (mut plugin, _) = plugin_after(IDENTITY, "fido2-hmac", &findings());
    let mut none = Buffers::zeros([0; KINDS]);
    let mut send = |plugin: &mut Plugin, line: &str, body| {
        plugin.send(line.as_bytes(), &body_of(body), &mut none, &mut []).unwrap_err()
    };
    assert_eq!(send(&mut plugin, "file-key 09", 15), WrongForm);
    assert_eq!(send(&mut plugin, "file-key 09", 16), BadIndex);
    assert_eq!(send(&mut plugin, "file-key 9", 16), NamesNothing);
    assert_eq!(send(&mut plugin, "file-key 1", 16), HeldBack);
    assert_eq!(send(&mut plugin, "file-key 0", 16), NoSpace);
    assert_eq!(send(&mut plugin, "error stanza 2 0", 1), HeldBack);
    assert_eq!(send(&mut plugin, "error stanza 0 0", 1), NoSpace);
    assert_eq!(send(&mut plugin, "error stanza 0 0", 0), OutputTooShort);
    assert_eq!(send(&mut plugin, "done a", 0), WrongForm);
    assert_eq!(send(&mut plugin, "done", 0), HeldBack);
    let mut buffers = Buffers::zeros(LENGTHS);
    say_out(&mut plugin, &mut buffers, ("file-key 0", 16)).unwrap();
    assert_eq!(send(&mut plugin, "file-key 0", 16), SecondKey);
    assert_eq!(send(&mut plugin, "error stanza 0 0", 1), WorkAndError);
}

/// At the client end 4, 5, 6, 9, 10, 11, 8, 15.
#[test]
fn order_at_receiving() {
    let (client, _) = client(IDENTITY);
    let receive = |client: &Client, line: &str, body| {
        let mut none = Buffers::zeros([0; KINDS]);
        client.clone().chunk(&text(line, &body_of(body)), &mut none, &mut []).refusal.unwrap()
    };
    assert_eq!(receive(&client, "file-key 09", 15), WrongForm);
    assert_eq!(receive(&client, "file-key 09", 16), BadIndex);
    assert_eq!(receive(&client, "file-key 9", 16), NamesNothing);
    assert_eq!(receive(&client, "file-key 3", 16), NoSpace);
    assert_eq!(receive(&client, "error internal", 0), OutputTooShort);
    let (mut after_key, mut buffers) = (client.clone(), Buffers::zeros(LENGTHS));
    hear(&mut after_key, &mut buffers, ("file-key 3", 16)).unwrap();
    assert_eq!(receive(&after_key, "file-key 3", 16), SecondKey);
    assert_eq!(receive(&after_key, "error stanza 3 0", 9), WorkAndError);
    assert_eq!(receive(&after_key, "error stanza 3 9", 9), NamesNothing);
}

/// Each text that an end writes is what the other receives; the tables are alike after each command.
#[test]
fn our_two_ends_agree() {
    let commands = [
        ("request-secret", 3),
        ("grease", 9),
        ("confirm eWVz bm8", 3),
        ("error internal", 60),
        ("file-key 5", 16),
    ];
    let (mut client, mut client_buffers) = client(IDENTITY);
    let (mut plugin, mut plugin_buffers) = plugin(IDENTITY);
    assert_eq!(client.session, plugin.session);
    for (line, body) in commands.into_iter().chain([("done", 0)]) {
        let mut out = vec![0; 500];
        let len = plugin.send(line.as_bytes(), &body_of(body), &mut plugin_buffers, &mut out).unwrap();
        let mut response = vec![0; 500];
        let heard = client.chunk(&out[..len], &mut client_buffers, &mut response).accepted().unwrap();
        let command = heard.last.unwrap();
        let written = match command {
            Command::RequestSecret => reply(&mut client, Response::Ok, b"1234", &mut response).unwrap(),
            Command::Confirm => reply(&mut client, Response::No, b"", &mut response).unwrap(),
            _ => heard.written,
        };
        if command != Command::Done {
            respond(&mut plugin, &response[..written], &mut out).unwrap();
        }
        assert_eq!(client.session, plugin.session);
        assert_eq!(client_buffers, plugin_buffers);
    }
    assert_eq!(plugin.session.phase, Phase::Ended);
}
