//! Input in chunks (document 02, No. 1): cuts, what is kept, faults in mid-chunk, 15 for the whole call, replies
//! with kept-back stanzas, finish and awaited.

use super::super::*;
use super::phase_two::{
    client, client_after, phase_one, plugin, plugin_after, IDENTITY, MACHINES, RECIPIENT,
};
use super::{text, LENGTHS};
use phase_two::Command;
use Refusal::{
    BadIndex, IndexFalls, NamesNothing, NoSpace, NotAStanza, NotEnded, OutOfTurn, OutputTooShort, SecondKey,
    SessionOver, TooLong, TooManyStanzas, UnfitResponse, Unwritable, WorkAndError, WrongForm,
};

const OK: &[u8] = b"-> ok\n\n";
const UNSUPPORTED: &[u8] = b"-> unsupported\n\n";
const GREASE: &[u8] = b"-> grease\n\n";
const MSG: &[u8] = b"-> msg\n\n";
const DONE: &[u8] = b"-> done\n\n";

/// What a call came to: its number if it was refused, how many were taken, the last of them, what was written.
type Outcome<T> = (Option<Refusal>, usize, Option<T>, Vec<u8>);

fn outcome<T>(received: Received<T>, out: &[u8]) -> Outcome<T> {
    assert!(out[received.written..].iter().all(|&byte| byte == 7), "behind what was written nothing is");
    (received.refusal, received.count, received.last, out[..received.written].to_vec())
}

fn nothing<T>(refusal: Refusal) -> Outcome<T> {
    (Some(refusal), 0, None, vec![])
}

/// The client receives a chunk. One refused with 15 leaves everything as it was.
fn hear(client: &mut Client, buffers: &mut Buffers, chunk: &[u8], out: usize) -> Outcome<Command> {
    let before = (client.clone(), buffers.clone());
    let mut out = vec![7; out];
    let received = client.chunk(chunk, buffers, &mut out);
    if received.refusal == Some(OutputTooShort) {
        assert_eq!((&*client, &*buffers), (&before.0, &before.1));
    }
    outcome(received, &out)
}

/// The client's host replies. A reply refused with 12, 13, 14, 15 or 17 and nothing taken leaves everything.
fn reply(
    client: &mut Client,
    buffers: &mut Buffers,
    reply: Response,
    body: &[u8],
    out: usize,
) -> Outcome<Command> {
    let before = (client.clone(), buffers.clone());
    let mut out = vec![7; out];
    let received = client.reply(reply, body, buffers, &mut out);
    let refused = matches!(
        received.refusal,
        Some(UnfitResponse | SessionOver | OutOfTurn | OutputTooShort | Unwritable)
    );
    if refused && received.written == 0 {
        assert_eq!((&*client, &*buffers), (&before.0, &before.1));
    }
    outcome(received, &out)
}

/// The plugin receives a chunk. One refused with 15 leaves everything as it was.
fn receive(plugin: &mut Plugin, buffers: &mut Buffers, chunk: &[u8], out: usize) -> Outcome<What> {
    let before = (plugin.clone(), buffers.clone());
    let mut out = vec![7; out];
    let received = plugin.chunk(chunk, buffers, &mut out);
    if received.refusal == Some(OutputTooShort) {
        assert_eq!((&*plugin, &*buffers), (&before.0, &before.1));
    }
    outcome(received, &out)
}

/// A text of the length that is alive all the way and has not ended.
fn unfinished(len: usize) -> Vec<u8> {
    let mut text = b"-> ".to_vec();
    text.resize(len, b'a');
    text
}

/// A whole unknown command of the length.
fn unknown(len: usize) -> Vec<u8> {
    [unfinished(len - 2), b"\n\n".to_vec()].concat()
}

/// A plugin that awaits the response to this command.
fn plugin_awaiting(line: &str) -> (Plugin, Buffers) {
    let (mut plugin, mut buffers) = plugin(RECIPIENT);
    plugin.send(line.as_bytes(), b"", &mut buffers, &mut [0; 99]).unwrap();
    (plugin, buffers)
}

#[test]
fn a_command_is_taken_with_its_last_byte() {
    let (mut client, mut buffers) = client(IDENTITY);
    for (stanza, command, response) in [
        (GREASE.to_vec(), Command::Other, UNSUPPORTED),
        (text("error identity 0", &[5; 100]), Command::Error, OK),
        (text("file-key 3", &[6; 16]), Command::FileKey, OK),
        (DONE.to_vec(), Command::Done, b""),
    ] {
        let (last, front) = stanza.split_last().unwrap();
        for &byte in front {
            assert_eq!(hear(&mut client, &mut buffers, &[byte], 0), (None, 0, None, vec![]));
        }
        assert_eq!(client.session.kept, front);
        let taken = hear(&mut client, &mut buffers, &[*last], 20);
        assert_eq!(taken, (None, 1, Some(command), response.to_vec()));
        assert_eq!(client.session.kept, b"");
    }
    assert_eq!(client.session.phase, Phase::Ended);
}

#[test]
fn a_phase_one_and_a_response_in_single_bytes() {
    let mut session = Plugin::open(b"recipient-v1", b"interop").unwrap();
    let mut buffers = Buffers::zeros(LENGTHS);
    let mut count = 0;
    for (line, body) in phase_one(RECIPIENT).into_iter().chain([("done", 0)]) {
        for byte in text(line, &vec![b'b'; body]) {
            count += receive(&mut session, &mut buffers, &[byte], 0).1;
        }
    }
    assert_eq!(count, 5);
    assert_eq!((session.clone(), buffers.clone()), plugin(RECIPIENT));

    session.send(b"request-secret", b"", &mut buffers, &mut [0; 99]).unwrap();
    let response = text("ok", b"1234");
    for &byte in &response[..response.len() - 1] {
        assert_eq!(receive(&mut session, &mut buffers, &[byte], 0), (None, 0, None, vec![]));
    }
    let last = (None, 1, Some(What::Response(Response::Ok)), b"1234".to_vec());
    assert_eq!(receive(&mut session, &mut buffers, b"\n", 4), last);
}

#[test]
fn several_commands_in_one_chunk() {
    let (mut client, mut buffers) = client(IDENTITY);
    let key = text("file-key 3", &[6; 16]);
    let chunk = [GREASE, &key, b"-> error internal\n\n-> do"].concat();
    let expected = (None, 3, Some(Command::Error), [UNSUPPORTED, OK, OK].concat());
    assert_eq!(hear(&mut client, &mut buffers, &chunk, 99), expected);
    assert_eq!(client.session.kept, b"-> do");
    let expected = (None, 1, Some(Command::Done), vec![]);
    assert_eq!(hear(&mut client, &mut buffers, b"ne\n\n", 0), expected);

    let mut plugin = Plugin::open(b"identity-v1", b"interop").unwrap();
    let chunk =
        [text("add-identity a", b""), text("recipient-stanza 3 x", b"y"), b"-> done\n".to_vec()].concat();
    let expected = (None, 2, Some(What::Command(phase_one::Command::RecipientStanza)), vec![]);
    assert_eq!(receive(&mut plugin, &mut buffers, &chunk, 0), expected);
    let expected = (None, 1, Some(What::Command(phase_one::Command::Done)), vec![]);
    assert_eq!(receive(&mut plugin, &mut buffers, b"\n", 0), expected);
}

/// Without a screen nothing waits, and nothing is kept back.
#[test]
fn without_a_screen_all_is_answered_at_once() {
    let (mut client, mut buffers) = client_after(RECIPIENT, "interop", false, &phase_one(RECIPIENT));
    let chunk = [MSG, b"-> confirm AA\n\n", GREASE, b"-> request-secret\n\n", DONE].concat();
    let fail = b"-> fail\n\n".as_slice();
    let written = [fail, fail, UNSUPPORTED, fail].concat();
    assert_eq!(hear(&mut client, &mut buffers, &chunk, 42), nothing(OutputTooShort));
    assert_eq!(hear(&mut client, &mut buffers, &chunk, 43), (None, 5, Some(Command::Done), written));
    assert_eq!(client.awaited(), b"");
}

/// Fronts are accepted; the first impossible byte gives 1 in the call that brings it, alone or with more.
#[test]
fn the_first_impossible_byte_gives_1_at_once() {
    let line = [b"-> a\n".as_slice(), &[b'A'; 64]].concat();
    let texts: [&[u8]; 9] =
        [b"x", b"-x", b"->  ", b"-> a \n", b"-> a\r", b"-> a\n=", b"-> a\nA\n", b"-> a\nAB\n", b"-> a\n-"];
    let long = [[line.as_slice(), b"A"].concat(), [line.as_slice(), b"\n-"].concat()];
    for text in texts.into_iter().chain(long.iter().map(Vec::as_slice)) {
        let (last, front) = text.split_last().unwrap();
        for behind in [b"".as_slice(), b"\n\n", b"g"] {
            let chunk = [&[*last], behind].concat();
            let (mut client, mut buffers) = client(RECIPIENT);
            assert_eq!(hear(&mut client, &mut buffers, front, 0), (None, 0, None, vec![]), "{text:?}");
            assert_eq!(client.session.kept, front);
            assert_eq!(hear(&mut client, &mut buffers, &chunk, 99), nothing(NotAStanza), "{text:?}");
            assert_eq!((client.session.phase, &client.session.kept), (Phase::Closed, &vec![]));

            let (mut plugin, mut buffers) = plugin_awaiting("request-public");
            assert_eq!(receive(&mut plugin, &mut buffers, front, 0), (None, 0, None, vec![]), "{text:?}");
            assert_eq!(receive(&mut plugin, &mut buffers, &chunk, 99), nothing(NotAStanza), "{text:?}");
            assert_eq!((plugin.session.phase, &plugin.session.kept), (Phase::Closed, &vec![]));

            let mut plugin = Plugin::open(b"recipient-v1", b"a").unwrap();
            assert_eq!(receive(&mut plugin, &mut buffers, front, 0), (None, 0, None, vec![]), "{text:?}");
            assert_eq!(receive(&mut plugin, &mut buffers, &chunk, 99), nothing(NotAStanza), "{text:?}");
        }
    }
}

/// 8,191 bytes of an unfinished stanza are kept. Byte 8,192 ends it, gives 3, or is impossible (1).
#[test]
fn byte_8192() {
    let inside = unfinished(stanza::LIMIT - 1);
    let nearly = unknown(stanza::LIMIT)[..stanza::LIMIT - 1].to_vec();
    for (front, byte, refusal) in [
        (&inside, b'a', Some(TooLong)),
        (&inside, b' ', Some(TooLong)),
        (&inside, b'\r', Some(NotAStanza)),
        (&nearly, b'A', Some(TooLong)),
        (&nearly, b'=', Some(NotAStanza)),
        (&nearly, b'\n', None),
    ] {
        let (mut client, mut buffers) = client(RECIPIENT);
        assert_eq!(hear(&mut client, &mut buffers, front, 0), (None, 0, None, vec![]));
        assert_eq!(client.session.kept.len(), 8_191);
        assert_eq!(hear(&mut client, &mut buffers, &[byte], 16).0, refusal);
        // The same in one chunk, whatever follows.
        let (mut client, mut buffers) = self::client(RECIPIENT);
        let chunk = [front.as_slice(), &[byte], b"\r"].concat();
        assert_eq!(hear(&mut client, &mut buffers, &chunk, 16).0, refusal.or(Some(NotAStanza)));

        let mut plugin = Plugin::open(b"identity-v1", b"a").unwrap();
        assert_eq!(receive(&mut plugin, &mut buffers, front, 0), (None, 0, None, vec![]));
        assert_eq!(receive(&mut plugin, &mut buffers, &[byte], 0).0, refusal);
        let (mut plugin, mut buffers) = plugin_awaiting("msg");
        assert_eq!(receive(&mut plugin, &mut buffers, front, 0), (None, 0, None, vec![]));
        assert_eq!(receive(&mut plugin, &mut buffers, &[byte], 0).0, refusal.or(Some(UnfitResponse)));
    }
}

#[test]
fn kept_back_bytes_at_the_limit_and_past_it() {
    for (waiting, command) in
        [(MSG.to_vec(), Command::Msg), (text("confirm AA", &[1; 6_000]), Command::Confirm)]
    {
        let (client, mut buffers) = client(IDENTITY);
        let key = text("file-key 3", &[6; 16]);
        let with = |behind: usize| [key.as_slice(), &waiting, &unfinished(behind)].concat();
        let mut past = client.clone();
        assert_eq!(hear(&mut past, &mut buffers, &with(8_193), 99), nothing(OutputTooShort));
        let mut at = past;
        assert_eq!(hear(&mut at, &mut buffers, &with(8_192), 99), (None, 2, Some(command), OK.to_vec()));
        assert_eq!((at.session.kept.len(), at.awaited()), (8_192, waiting.as_slice()));
    }
}

/// A chunk of 8,193 bytes is never refused for kept-back bytes: one at least ends the command that waits.
#[test]
fn the_waiting_stanza_is_not_counted() {
    let (mut client, mut buffers) = client(RECIPIENT);
    hear(&mut client, &mut buffers, &MSG[..MSG.len() - 1], 0);
    let chunk = |behind| [b"\n".to_vec(), unknown(behind)].concat();
    assert_eq!(hear(&mut client, &mut buffers, &chunk(8_193), 0), nothing(OutputTooShort));
    assert_eq!(hear(&mut client, &mut buffers, &chunk(8_192), 0), (None, 1, Some(Command::Msg), vec![]));
    let expected = (None, 1, Some(Command::Other), [OK, UNSUPPORTED].concat());
    assert_eq!(reply(&mut client, &mut buffers, Response::Ok, b"", 23), expected);

    // A waiting stanza of 8,192 bytes, and as many kept back.
    let longest = text(&format!("confirm {}", "A".repeat(8_179)), b"");
    assert_eq!(longest.len(), 8_192);
    let chunk = [longest.clone(), unknown(8_192)].concat();
    let waits = (None, 1, Some(Command::Confirm), vec![]);
    assert_eq!(hear(&mut client, &mut buffers, &chunk, 0), waits);
    assert_eq!((client.awaited(), client.session.kept.len()), (longest.as_slice(), 8_192));
}

#[test]
fn several_waiting_commands_in_one_chunk() {
    let (mut client, mut buffers) = client(IDENTITY);
    let confirm = text("confirm eWVz", b"Sure?");
    let key = text("file-key 5", &[6; 16]);
    let chunk = [GREASE, MSG, &confirm, GREASE, &key, b"-> request-secret\n\n", DONE].concat();
    let expected = (None, 2, Some(Command::Msg), UNSUPPORTED.to_vec());
    assert_eq!(hear(&mut client, &mut buffers, &chunk, 16), expected);
    assert_eq!(client.awaited(), MSG);

    let unfit = [(Response::Yes, b"".as_slice()), (Response::Ok, b"body"), (Response::Unsupported, b"")];
    for (response, body) in unfit {
        assert_eq!(reply(&mut client, &mut buffers, response, body, 99), nothing(UnfitResponse));
    }
    assert_eq!(client.session.kept, chunk[GREASE.len() + MSG.len()..]);
    let expected = (None, 1, Some(Command::Confirm), OK.to_vec());
    assert_eq!(reply(&mut client, &mut buffers, Response::Ok, b"", 99), expected);
    assert_eq!(client.awaited(), confirm);

    assert_eq!(reply(&mut client, &mut buffers, Response::Ok, b"", 99), nothing(UnfitResponse));
    assert_eq!(client.session.tables.of(Kind::Key).len(), 0);
    let written = [b"-> ok no\n\n", UNSUPPORTED, OK].concat();
    let expected = (None, 3, Some(Command::RequestSecret), written);
    assert_eq!(reply(&mut client, &mut buffers, Response::No, b"", 99), expected);
    assert_eq!(client.session.tables.of(Kind::Key).len(), 1);

    let expected = (None, 1, Some(Command::Done), text("ok", b"1234"));
    assert_eq!(reply(&mut client, &mut buffers, Response::Ok, b"1234", 99), expected);
    assert_eq!((client.session.phase, client.awaited()), (Phase::Ended, b"".as_slice()));
    assert_eq!(reply(&mut client, &mut buffers, Response::Ok, b"", 99), nothing(SessionOver));
}

/// What was kept back may be the front of a stanza, whose rest comes in a chunk.
#[test]
fn a_front_is_kept_behind_a_reply() {
    let (mut client, mut buffers) = client(RECIPIENT);
    hear(&mut client, &mut buffers, b"-> msg\n\n-> gre", 0);
    assert_eq!(reply(&mut client, &mut buffers, Response::Ok, b"", 7), (None, 0, None, OK.to_vec()));
    assert_eq!(client.session.kept, b"-> gre");
    let expected = (None, 1, Some(Command::Other), UNSUPPORTED.to_vec());
    assert_eq!(hear(&mut client, &mut buffers, b"ase\n\n", 16), expected);
}

/// While the client waits a chunk is refused with 14, and nothing of it is kept.
#[test]
fn a_chunk_while_the_client_waits() {
    let (mut client, mut buffers) = client(RECIPIENT);
    hear(&mut client, &mut buffers, &[MSG, GREASE].concat(), 0);
    let before = client.clone();
    for chunk in [b"".as_slice(), b"x", GREASE, &unfinished(9_000)] {
        assert_eq!(hear(&mut client, &mut buffers, chunk, 99), nothing(OutOfTurn));
        assert_eq!(client, before);
    }
}

/// Faults that a client meets behind a stanza for file 0 (or a key for file 3) and an unknown command.
fn client_faults() -> Vec<(&'static str, Vec<u8>, Refusal)> {
    let key = |index: &str, len: usize| text(&format!("file-key {index}"), &vec![6; len]);
    vec![
        (RECIPIENT, b"-> msg \n\n".to_vec(), NotAStanza),
        (RECIPIENT, unfinished(8_192), TooLong),
        (RECIPIENT, text("msg a", b""), WrongForm),
        (IDENTITY, key("3", 15), WrongForm),
        (IDENTITY, key("05", 16), BadIndex),
        (IDENTITY, key("4", 16), NamesNothing),
        (IDENTITY, text("error internal", &[0; 4_097]), NoSpace),
        (IDENTITY, key("3", 16), SecondKey),
        (RECIPIENT, text("recipient-stanza 0 s", b"").repeat(2), TooManyStanzas),
        (RECIPIENT, text("error internal", b""), WorkAndError),
        (IDENTITY, text("done", b"body"), WrongForm),
    ]
}

/// What stood before a fault stands, with its responses; the session is closed, and the rest is not looked at.
#[test]
fn client_faults_in_mid_chunk() {
    for (machine, fault, refusal) in client_faults() {
        let work = if machine == RECIPIENT {
            text("recipient-stanza 0 s", b"")
        } else {
            text("file-key 3", &[6; 16])
        };
        let good = [&work, GREASE].concat();
        let (mut client, mut buffers) = client(machine);
        let (mut uncut, mut uncut_buffers) = (client.clone(), buffers.clone());
        let count = if refusal == TooManyStanzas { 3 } else { 2 };
        let chunk = [&good, fault.as_slice(), GREASE].concat();
        let taken = hear(&mut client, &mut buffers, &chunk, 99);
        assert_eq!((taken.0, taken.1), (Some(refusal), count));
        let mut written = Vec::new();
        for stanza in [&work, GREASE, &fault] {
            written.extend(hear(&mut uncut, &mut uncut_buffers, stanza, 99).3);
        }
        assert_eq!((taken.3, client, buffers), (written, uncut.clone(), uncut_buffers));
        assert_eq!((uncut.session.phase, uncut.session.kept.len()), (Phase::Closed, 0));
    }
}

/// The same in what was kept back: the reply stands. So a reply can close, and what it was asked is awaited no
/// more.
#[test]
fn client_faults_behind_a_reply() {
    for (machine, fault, refusal) in client_faults() {
        let work = if machine == RECIPIENT {
            text("recipient-stanza 0 s", b"")
        } else {
            text("file-key 3", &[6; 16])
        };
        if work.len() + fault.len() > KEPT_BACK_LIMIT {
            continue;
        }
        let (mut client, mut buffers) = client(machine);
        let (mut uncut, mut uncut_buffers) = (client.clone(), buffers.clone());
        let kept_back = [&work, fault.as_slice(), b"-"].concat();
        hear(&mut client, &mut buffers, &[MSG, &kept_back].concat(), 0);
        let taken = reply(&mut client, &mut buffers, Response::Fail, b"", 99);
        let count = if refusal == TooManyStanzas { 2 } else { 1 };
        assert_eq!((taken.0, taken.1), (Some(refusal), count));
        hear(&mut uncut, &mut uncut_buffers, MSG, 0);
        let mut written = reply(&mut uncut, &mut uncut_buffers, Response::Fail, b"", 99).3;
        for stanza in [&work, &fault] {
            written.extend(hear(&mut uncut, &mut uncut_buffers, stanza, 99).3);
        }
        assert_eq!((taken.3, client, buffers), (written, uncut.clone(), uncut_buffers));
        assert_eq!((uncut.session.phase, uncut.awaited()), (Phase::Closed, b"".as_slice()));
    }
}

/// What is kept back may be too long for a stanza (3), or impossible at its byte 8,192 (1).
#[test]
fn kept_back_bytes_that_are_no_stanza() {
    let mut bad = unfinished(8_192);
    bad[8_191] = b'\n';
    bad[8_190] = b' ';
    for (behind, refusal) in [(unfinished(8_192), TooLong), (bad, NotAStanza)] {
        let (mut client, mut buffers) = client(RECIPIENT);
        assert_eq!(hear(&mut client, &mut buffers, &[MSG, &behind].concat(), 0).0, None);
        assert_eq!(reply(&mut client, &mut buffers, Response::Ok, b"", 6), nothing(OutputTooShort));
        let expected = (Some(refusal), 0, None, OK.to_vec());
        assert_eq!(reply(&mut client, &mut buffers, Response::Ok, b"", 7), expected);
        assert_eq!(client.session.phase, Phase::Closed);
    }
}

#[test]
fn plugin_faults_in_mid_chunk() {
    let good = [text("add-identity a", b""), text("recipient-stanza 3 x", b"")].concat();
    for (fault, refusal) in [
        (b"->x".to_vec(), NotAStanza),
        (unfinished(8_192), TooLong),
        (text("add-identity", b""), WrongForm),
        (text("recipient-stanza 03 x", b""), BadIndex),
        (text("recipient-stanza 2 x", b""), IndexFalls),
        (text("recipient-stanza 3 x", &[0; 4_095]), NoSpace),
    ] {
        let mut plugin = Plugin::open(b"identity-v1", b"interop").unwrap();
        let mut buffers = Buffers::zeros(LENGTHS);
        let (mut uncut, mut uncut_buffers) = (plugin.clone(), buffers.clone());
        let chunk = [&good, &fault, DONE].concat();
        let expected = (Some(refusal), 2, Some(What::Command(phase_one::Command::RecipientStanza)), vec![]);
        assert_eq!(receive(&mut plugin, &mut buffers, &chunk, 0), expected);
        receive(&mut uncut, &mut uncut_buffers, &good, 0);
        receive(&mut uncut, &mut uncut_buffers, &fault, 0);
        assert_eq!((&plugin, buffers), (&uncut, uncut_buffers));
        assert_eq!((plugin.session.phase, plugin.session.kept.len()), (Phase::Closed, 0));
    }
}

/// Buffers whose free bytes are not zeros: another session has used them.
fn used_buffers() -> Buffers {
    let (mut other, mut buffers) = client(IDENTITY);
    let chunk =
        [text("error internal", &[9; 100]), text("file-key 3", &[8; 16]), text("file-key 5", &[8; 16])];
    assert_eq!(hear(&mut other, &mut buffers, &chunk.concat(), 99).0, None);
    buffers
}

/// The output buffer is for the sum; one byte short, and nothing of the call is taken: no command, no byte of a
/// buffer, no kept byte, no output.
#[test]
fn output_for_a_chunk_exact_and_one_byte_short() {
    let (fresh, _) = client(IDENTITY);
    let stanzas =
        [GREASE.to_vec(), text("error identity 0", b"no"), text("file-key 5", &[6; 16]), GREASE.to_vec()];
    let responses = [UNSUPPORTED, OK, OK, UNSUPPORTED].concat();
    for tail in [b"".as_slice(), b"-> fro", MSG, DONE, b"-> msg\n\n-> kept back"] {
        for front in [0, 3, 11, 20] {
            let (mut client, mut buffers) = (fresh.clone(), used_buffers());
            let text = [&stanzas.concat(), tail].concat();
            let front_len = hear(&mut client, &mut buffers, &text[..front], 16).3.len();
            let need = responses.len() - front_len;
            for out in [0, 6, need - 1] {
                assert_eq!(hear(&mut client, &mut buffers, &text[front..], out), nothing(OutputTooShort));
            }
            let taken = hear(&mut client, &mut buffers, &text[front..], need);
            assert_eq!((taken.0, taken.3), (None, responses[front_len..].to_vec()));
        }
    }
}

#[test]
fn output_for_a_reply_exact_and_one_byte_short() {
    let (fresh, _) = client(IDENTITY);
    let kept_back = [GREASE, &text("file-key 5", &[6; 16]), b"-> request-public\n\n", GREASE, DONE].concat();
    let (mut client, mut buffers) = (fresh, used_buffers());
    hear(&mut client, &mut buffers, &[b"-> request-secret\n\n", kept_back.as_slice()].concat(), 0);
    let first = text("ok", b"1234");
    let need = first.len() + UNSUPPORTED.len() + OK.len();
    // Not even where the reply alone would fit.
    for out in [0, first.len() - 1, first.len(), first.len() + UNSUPPORTED.len(), need - 1] {
        assert_eq!(reply(&mut client, &mut buffers, Response::Ok, b"1234", out), nothing(OutputTooShort));
    }
    let taken = reply(&mut client, &mut buffers, Response::Ok, b"1234", need);
    assert_eq!(taken, (None, 3, Some(Command::RequestPublic), [&first, UNSUPPORTED, OK].concat()));
    assert_eq!(reply(&mut client, &mut buffers, Response::Fail, b"", 24), nothing(OutputTooShort));
    let taken = reply(&mut client, &mut buffers, Response::Fail, b"", 25);
    assert_eq!(taken, (None, 2, Some(Command::Done), [b"-> fail\n\n", UNSUPPORTED].concat()));
}

/// Faults are met from the left; within one stanza 15 comes last.
#[test]
fn a_short_output_buffer_and_a_fault() {
    for (parts, out, expected) in [
        ([GREASE, b"-> msg a\n\n"].concat(), 15, OutputTooShort),
        ([GREASE, b"\r"].concat(), 15, OutputTooShort),
        ([b"-> msg a\n\n", GREASE].concat(), 0, WrongForm),
        ([b"\r", GREASE].concat(), 0, NotAStanza),
        ([GREASE, b"-> error internal x\n\n", GREASE].concat(), 16, WrongForm),
        ([GREASE, b"-> error identity 9\n\n"].concat(), 16, NamesNothing),
        ([GREASE, GREASE, b"\r"].concat(), 31, OutputTooShort),
        ([GREASE, DONE, b"x"].concat(), 15, OutputTooShort),
        ([GREASE, DONE, b"x"].concat(), 16, SessionOver),
        // Kept-back bytes past the limit come last.
        ([GREASE, MSG, &unfinished(8_193)].concat(), 16, OutputTooShort),
        ([b"-> msg a\n\n", MSG, &unfinished(8_193)].concat(), 16, WrongForm),
    ] {
        let (mut client, mut buffers) = client(IDENTITY);
        assert_eq!(hear(&mut client, &mut buffers, &parts, out).0, Some(expected), "{expected:?}");
        if parts.len() < 8_000 {
            let (mut client, mut buffers) = self::client(IDENTITY);
            hear(&mut client, &mut buffers, &[MSG, &parts].concat(), 0);
            let replied = reply(&mut client, &mut buffers, Response::Ok, b"", 7 + out);
            assert_eq!(replied.0, Some(expected), "{expected:?}");
        }
    }
}

/// A reply's own 12, 17 and 15 never close, and come in this order.
#[test]
fn a_reply_that_is_refused_waits_on() {
    let (mut client, mut buffers) = client(IDENTITY);
    hear(&mut client, &mut buffers, b"-> request-secret\n\n\r", 0);
    for (response, len, out, refusal) in [
        (Response::No, 9_000, 0, UnfitResponse),
        (Response::Ok, 9_000, 0, Unwritable),
        (Response::Ok, 6_045, 8_191, OutputTooShort),
    ] {
        assert_eq!(reply(&mut client, &mut buffers, response, &vec![0; len], out), nothing(refusal));
        assert_eq!(
            (client.awaited(), client.session.kept.as_slice()),
            (b"-> request-secret\n\n".as_slice(), b"\r".as_slice())
        );
    }
    assert_eq!(
        reply(&mut client, &mut buffers, Response::Ok, b"", 7),
        (Some(NotAStanza), 0, None, OK.to_vec())
    );
}

/// A response's body that does not fit: the bytes of the chunk are not taken, and those before are kept.
#[test]
fn output_for_a_response_exact_and_one_byte_short() {
    let (mut plugin, mut buffers) = plugin_awaiting("request-secret");
    receive(&mut plugin, &mut buffers, b"-> ok\nMT", 0);
    for tail in [b"IzNA\n".as_slice(), b"IzNA\n-> ok\n\n"] {
        assert_eq!(receive(&mut plugin, &mut buffers, tail, 3), nothing(OutputTooShort));
        assert_eq!(plugin.session.kept, b"-> ok\nMT");
    }
    let taken = receive(&mut plugin, &mut buffers, b"IzNA\n", 4);
    assert_eq!(taken, (None, 1, Some(What::Response(Response::Ok)), b"1234".to_vec()));
}

/// Bytes behind the last done: 13, and they are dropped; the done stands.
#[test]
fn bytes_behind_the_last_done() {
    for tail in [b"x".as_slice(), b"\n", DONE, b"-> gre"] {
        let (mut client, mut buffers) = client(RECIPIENT);
        let taken = hear(&mut client, &mut buffers, &[GREASE, DONE, tail].concat(), 16);
        assert_eq!(taken, (Some(SessionOver), 2, Some(Command::Done), UNSUPPORTED.to_vec()));
        assert_eq!((client.session.phase, client.session.kept.len()), (Phase::Ended, 0));
        assert_eq!(hear(&mut client, &mut buffers, tail, 16), nothing(SessionOver));

        let (mut client, mut buffers) = self::client(RECIPIENT);
        hear(&mut client, &mut buffers, &[MSG, DONE, tail].concat(), 0);
        let taken = reply(&mut client, &mut buffers, Response::Ok, b"", 7);
        assert_eq!(taken, (Some(SessionOver), 1, Some(Command::Done), OK.to_vec()));
        assert_eq!((client.session.phase, client.session.kept.len()), (Phase::Ended, 0));
        assert_eq!(client.session.finish(), Ok(()));
    }
}

/// Bytes that the plugin end does not await: 14, unread and dropped. The session goes on.
#[test]
fn bytes_that_none_awaits() {
    for tail in [b"x".as_slice(), b"\n", OK, DONE, b"-> o"] {
        let mut plugin = Plugin::open(b"recipient-v1", b"a").unwrap();
        let mut buffers = Buffers::zeros(LENGTHS);
        let taken = receive(&mut plugin, &mut buffers, &[DONE, tail].concat(), 0);
        assert_eq!(taken, (Some(OutOfTurn), 1, Some(What::Command(phase_one::Command::Done)), vec![]));
        assert_eq!((plugin.session.phase, plugin.session.kept.len()), (Phase::Two, 0));
        // A whole chunk.
        assert_eq!(receive(&mut plugin, &mut buffers, tail, 9), nothing(OutOfTurn));

        plugin.send(b"request-public", b"", &mut buffers, &mut [0; 99]).unwrap();
        let taken = receive(&mut plugin, &mut buffers, &[&text("ok", b"1234"), tail].concat(), 4);
        assert_eq!(taken, (Some(OutOfTurn), 1, Some(What::Response(Response::Ok)), b"1234".to_vec()));
        assert_eq!((plugin.session.awaits, plugin.session.kept.len()), (None, 0));
        assert_eq!(receive(&mut plugin, &mut buffers, tail, 9), nothing(OutOfTurn));
        assert_eq!(plugin.send(b"done", b"", &mut buffers, &mut [0; 9]), Ok(9));
    }
}

/// An unfit response closes, whatever follows it.
#[test]
fn an_unfit_response_and_more() {
    for tail in [b"".as_slice(), b"x", OK] {
        let (mut plugin, mut buffers) = plugin_awaiting("msg");
        assert_eq!(
            receive(&mut plugin, &mut buffers, &[UNSUPPORTED, tail].concat(), 0),
            nothing(UnfitResponse)
        );
        assert_eq!((plugin.session.phase, plugin.session.kept.len()), (Phase::Closed, 0));
    }
}

/// A session, and what an empty chunk, finish and awaited say in it.
type State = (Client, Option<Refusal>, Result<(), Refusal>, &'static [u8]);

/// A session of each state.
fn client_states() -> Vec<State> {
    let fresh = Client::open(b"recipient-v1", b"interop").unwrap();
    let (in_phase_two, _) = client(RECIPIENT);
    let mut buffers = Buffers::zeros(LENGTHS);
    let mut after = |chunk: &[u8]| {
        let mut client = in_phase_two.clone();
        hear(&mut client, &mut buffers, chunk, 99);
        client
    };
    let mut by_reply = after(b"-> msg\n\nx");
    reply(&mut by_reply, &mut Buffers::zeros(LENGTHS), Response::Ok, b"", 7);
    assert_eq!(by_reply.session.phase, Phase::Closed);
    vec![
        (fresh, Some(OutOfTurn), Err(NotEnded), b""),
        (after(b""), None, Err(NotEnded), b""),
        (after(b"-> ms"), None, Err(NotEnded), b""),
        (after(GREASE), None, Err(NotEnded), b""),
        (after(MSG), Some(OutOfTurn), Err(NotEnded), MSG),
        (after(b"-> grease\n\n-> msg\n\n-> do"), Some(OutOfTurn), Err(NotEnded), MSG),
        (after(DONE), Some(SessionOver), Ok(()), b""),
        (after(b"-> grease\n\n-> done\n\nx"), Some(SessionOver), Ok(()), b""),
        (after(b"-> grease\n\nx"), Some(SessionOver), Err(SessionOver), b""),
        (by_reply, Some(SessionOver), Err(SessionOver), b""),
    ]
}

/// None of the three changes anything; finish is not remembered.
#[test]
fn client_questions_in_every_state() {
    for (mut client, empty, finish, awaited) in client_states() {
        let before = client.clone();
        let mut buffers = Buffers::zeros(LENGTHS);
        assert_eq!(client.session.finish(), finish);
        assert_eq!(client.awaited(), awaited);
        assert_eq!(hear(&mut client, &mut buffers, b"", 0), (empty, 0, None, vec![]));
        assert_eq!(client, before);
        assert_eq!(client.session.finish(), finish);
    }
}

#[test]
fn plugin_questions_in_every_state() {
    let fresh = Plugin::open(b"recipient-v1", b"interop").unwrap();
    let (in_phase_two, _) = plugin(RECIPIENT);
    let (waiting, _) = plugin_awaiting("msg");
    let after = |plugin: &Plugin, chunk: &[u8]| {
        let (mut plugin, mut buffers) = (plugin.clone(), Buffers::zeros(LENGTHS));
        receive(&mut plugin, &mut buffers, chunk, 0);
        plugin
    };
    let mut ended = in_phase_two.clone();
    ended.send(b"done", b"", &mut Buffers::zeros(LENGTHS), &mut [0; 9]).unwrap();
    for (mut plugin, empty, finish) in [
        (after(&fresh, b"-> add-identity a\n\n-> do"), None, Err(NotEnded)),
        (after(&fresh, b"-> done\n\nx"), None, Err(NotEnded)),
        (after(&fresh, b"x"), Some(SessionOver), Err(SessionOver)),
        (fresh, None, Err(NotEnded)),
        (in_phase_two, None, Err(NotEnded)),
        (after(&waiting, b"-> o"), None, Err(NotEnded)),
        (after(&waiting, OK), None, Err(NotEnded)),
        (after(&waiting, UNSUPPORTED), Some(SessionOver), Err(SessionOver)),
        (waiting, None, Err(NotEnded)),
        (ended, Some(SessionOver), Ok(())),
    ] {
        let before = plugin.clone();
        let mut buffers = Buffers::zeros(LENGTHS);
        assert_eq!(plugin.session.finish(), finish);
        assert_eq!(receive(&mut plugin, &mut buffers, b"", 0), (empty, 0, None, vec![]));
        assert_eq!(plugin, before);
    }
}

/// 13 and 14 for a whole chunk leave everything; what may come goes on behind them.
#[test]
fn a_chunk_that_is_not_in_its_turn_changes_nothing() {
    for machine in MACHINES {
        let mut fresh = Client::open(machine.as_bytes(), b"interop").unwrap();
        let mut buffers = Buffers::zeros(LENGTHS);
        let before = fresh.clone();
        for chunk in [b"x".as_slice(), b"-> gre", GREASE, &unfinished(9_000)] {
            assert_eq!(hear(&mut fresh, &mut buffers, chunk, 99), nothing(OutOfTurn));
            assert_eq!(fresh, before);
        }
        assert_eq!(fresh.send(b"done", b"", &mut buffers, &mut [0; 9]), Ok(9));
        assert_eq!(hear(&mut fresh, &mut buffers, GREASE, 16).0, None);
    }
}

/// A response that is half there is due still: nothing can be sent.
#[test]
fn a_half_response_is_awaited() {
    let (mut plugin, mut buffers) = plugin_awaiting("msg");
    receive(&mut plugin, &mut buffers, b"-> o", 0);
    assert_eq!(plugin.send(b"done", b"", &mut buffers, &mut [0; 9]), Err(OutOfTurn));
    assert_eq!(receive(&mut plugin, &mut buffers, b"k\n\n", 0).0, None);
    assert_eq!(plugin.send(b"done", b"", &mut buffers, &mut [0; 9]), Ok(9));
}

/// The plugin end lends the buffers at each chunk; those of the chunk that brings the last byte count.
#[test]
fn the_buffers_of_the_last_byte_count() {
    let (mut plugin, mut buffers) = plugin_after(RECIPIENT, "interop", &[]);
    let mut fresh = Plugin::open(b"recipient-v1", b"interop").unwrap();
    buffers.resize([0; KINDS]);
    assert_eq!(receive(&mut fresh, &mut buffers, b"-> add-recipient abc\n", 0).0, None);
    let mut short = fresh.clone();
    buffers.resize([3; KINDS]);
    assert_eq!(receive(&mut fresh, &mut buffers, b"\n", 0).0, None);
    buffers.resize([2; KINDS]);
    assert_eq!(receive(&mut short, &mut buffers, b"\n", 0).0, Some(NoSpace));
    assert_eq!(receive(&mut plugin, &mut buffers, b"\n", 0).0, Some(OutOfTurn));
}

/// So it is with those lent to a reply.
#[test]
fn the_buffers_of_the_reply_count() {
    let (mut client, _) = client(IDENTITY);
    let key = text("file-key 3", &[6; 16]);
    hear(&mut client, &mut Buffers::zeros([0; KINDS]), &[MSG, &key].concat(), 0);
    let mut short = client.clone();
    let mut buffers = Buffers::zeros([16; KINDS]);
    assert_eq!(reply(&mut client, &mut buffers, Response::Ok, b"", 14).0, None);
    assert_eq!(client.session.tables.payload(Kind::Key, 0, &buffers), [6; 16]);
    let taken = reply(&mut short, &mut Buffers::zeros([15; KINDS]), Response::Ok, b"", 14);
    assert_eq!(taken, (Some(NoSpace), 0, None, OK.to_vec()));
}
