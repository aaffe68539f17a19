//! The calls of a session that are measured.

use crate::calls::{Call, End};
use crate::texts::{bytes, written, LONG_NAME};
use reference::bech32::{self, Kind};
use reference::session::Response;
use reference::stanza;
use std::slice::from_ref;

/// How often a command is repeated that a session takes so often.
const TIMES: usize = 64;

const NAME: &str = "interop";
const RECIPIENT: &str = "recipient-v1";
const IDENTITY: &str = "identity-v1";
const UNKNOWN: &str = "grease a b";

/// What the issues ask of a figure.
pub enum Aim {
    /// At most so many instructions.
    AtMost(f64),
    /// Fewer than the second program's.
    BelowSecond,
    /// At most so many times the library's own figure of the row before.
    TimesBefore(f64),
    /// At most so many times plain C's.
    TimesPlainC(f64),
}

/// A row of the report.
pub struct Row {
    pub name: String,
    /// The calls of a session: those up to `before` bring it about, the others are measured.
    pub calls: Vec<Call>,
    pub before: usize,
    /// Their instructions are divided by this.
    pub times: usize,
    /// Whether plain C has these calls.
    pub plain: bool,
    /// Whether only the plugin's `receive` is counted, and not what the replay program does to lend buffers and to keep the session.
    pub alone: bool,
    pub aim: Option<Aim>,
}

impl Row {
    fn new(name: &str, before: &[Call], calls: &[Call]) -> Self {
        let (name, times) = (name.to_owned(), calls.len());
        Row { name, calls: [before, calls].concat(), before: before.len(), times, plain: false, alone: false, aim: None }
    }

    fn beside_plain_c(self) -> Self {
        Row { plain: true, ..self }
    }

    fn at_most(self, most: f64) -> Self {
        Row { aim: Some(Aim::AtMost(most)), ..self }
    }
}

/// What is measured.
pub fn rows() -> Vec<Row> {
    let mut rows = client_rows();
    rows.extend(plugin_rows());
    rows
}

fn client_rows() -> Vec<Row> {
    let [identity, key, header, unknown, done] =
        phase_one().map(|(arguments, body)| Call::Send(arguments, body));
    let recipients: Vec<Call> = recipients().map(|arguments| Call::Send(arguments, Vec::new())).collect();
    let one = [open(End::Client, RECIPIENT, NAME)];
    let one_identity = [open(End::Client, IDENTITY, NAME)];
    let many = |call: &Call| vec![call.clone(); TIMES];
    // Phase two, as many recipients and identities as there may be, and a file key.
    let two = [&one[..], &recipients, &many(&identity), &[key.clone(), done.clone()]].concat();
    // Phase two, a header stanza for each of many files.
    let headers: Vec<Call> = (0..TIMES).map(|file| Call::Send(stanza_of(file), bytes(32))).collect();
    let two_identity = [&one_identity[..], &headers, from_ref(&done)].concat();
    let keys: Vec<Call> = (0..TIMES).map(|file| received(&format!("file-key {file}"), &bytes(16))).collect();
    let returned = many(&received(&stanza_of(0), &bytes(32)));
    let [msg, confirm] = asking().map(|(arguments, body)| received(&arguments, &body));
    let msg_awaits = [&two[..], from_ref(&msg)].concat();
    let confirm_awaits = [&two[..], from_ref(&confirm)].concat();
    let mut rows = vec![
        Row::new("open", &[], &one),
        Row::new("send add-recipient, 60 characters", &one, &recipients).beside_plain_c(),
        Row::new("send add-identity, 68 characters", &one, &many(&identity)).beside_plain_c(),
        Row::new("send wrap-file-key", &one, &many(&key)).beside_plain_c(),
        Row::new("send recipient-stanza, a body of 32 bytes", &one_identity, &many(&header)).beside_plain_c(),
        Row::new("send an unknown command", &one, &many(&unknown)).beside_plain_c(),
        Row::new("send done", &one, &[done]).beside_plain_c(),
        Row::new("receive msg, which awaits a reply", &two, &[msg]),
        Row::new("receive confirm, which awaits a reply", &two, &[confirm]),
        Row::new("receive recipient-stanza, a body of 32 bytes", &two, &returned)
            .beside_plain_c()
            .at_most(3_300.0),
        Row::new("receive file-key", &two_identity, &keys),
        Row::new("receive error", &two, &many(&received("error internal", b"No token"))),
        Row::new("receive an unknown command", &two, &many(&received(UNKNOWN, b"")))
            .beside_plain_c()
            .at_most(1_700.0),
        Row::new("receive done", &two, &[received("done", b"")]),
        Row::new("reply ok to msg", &msg_awaits, &[Call::Reply(Response::Ok)]),
        Row::new("reply yes to confirm", &confirm_awaits, &[Call::Reply(Response::Yes)]),
    ];
    for row in &mut rows {
        row.name.insert_str(0, "client: ");
    }
    rows
}

fn plugin_rows() -> Vec<Row> {
    let [identity, key, header, unknown, done] =
        phase_one().map(|(arguments, body)| received(&arguments, &body));
    let recipients: Vec<Call> = recipients().map(|arguments| received(&arguments, b"")).collect();
    let one = [open(End::Plugin, RECIPIENT, NAME)];
    let one_identity = [open(End::Plugin, IDENTITY, NAME)];
    let one_fido = [open(End::Plugin, IDENTITY, "fido2-hmac")];
    let fido = format!("recipient-stanza 0 fido2-hmac {} {}", "A".repeat(43), "A".repeat(16));
    let many = |call: &Call| vec![call.clone(); TIMES];
    let two = [&one[..], &recipients, &many(&identity), &[key.clone(), done.clone()]].concat();
    let two_identity = [&one_identity[..], &[header.clone(), done.clone()]].concat();
    let whole = [recipients.clone(), many(&key), vec![done.clone()]].concat();
    let long = long_recipients();
    let longest: Vec<Call> = (0..TIMES).map(|number| received(&longest_recipient(number), b"")).collect();
    let last_bytes = other_last_bytes();
    let one_long = [open(End::Plugin, RECIPIENT, LONG_NAME)];
    let [msg, confirm] = asking().map(|(arguments, body)| Call::Send(arguments, body));
    let send = |arguments: &str, body: &[u8]| [Call::Send(arguments.to_owned(), body.to_vec())];
    let response = received("ok", b"");
    let msg_awaits = [&two[..], from_ref(&msg)].concat();
    let pairs = vec![[msg.clone(), response.clone()]; TIMES].concat();
    let mut rows = vec![
        Row::new("open", &[], &one),
        Row::new("receive add-recipient, 60 characters", &one, &recipients)
            .beside_plain_c()
            .at_most(4_100.0),
        Row::new("receive add-identity, 68 characters", &one, &many(&identity)).beside_plain_c(),
        Row::new("receive wrap-file-key", &one, &many(&key)).beside_plain_c(),
        Row::new("receive recipient-stanza, a body of 32 bytes", &one_identity, &many(&header))
            .beside_plain_c()
            .at_most(3_300.0),
        Row::new(
            "receive a fido2-hmac stanza, a body of 32 bytes",
            &one_fido,
            &many(&received(&fido, &bytes(32))),
        ),
        Row::new("receive an unknown command", &one, &many(&unknown)).beside_plain_c().at_most(1_700.0),
        Row::new("receive done", &one, &[done]).beside_plain_c(),
        Row {
            times: 1,
            aim: Some(Aim::BelowSecond),
            ..Row::new("receive 64 recipients, 64 file keys and done", &one, &whole).beside_plain_c()
        },
        Row {
            times: 1,
            aim: Some(Aim::TimesPlainC(2.0)),
            ..Row::new("receive 64 recipients of 1,024 characters", &one_long, &longest).beside_plain_c()
        },
        Row {
            times: 1,
            ..Row::new("receive 64 of 1,024 characters, the last of them other", &one_long, &last_bytes)
        },
        Row { times: 1, ..Row::new("receive 64,000 bytes of long recipients in one chunk", &one, &[long.clone()]) },
        Row { times: 1, ..Row::new("receive the same in single bytes", &one, &in_single_bytes(&long)) },
        Row { times: 1, alone: true, ..Row::new("`receive` alone, in one chunk", &one, &[long.clone()]) },
        Row {
            times: 1,
            alone: true,
            aim: Some(Aim::TimesBefore(10.0)),
            ..Row::new("`receive` alone, in single bytes", &one, &in_single_bytes(&long))
        },
        Row::new("send msg", &two, &[msg]).beside_plain_c(),
        Row::new("send confirm", &two, &[confirm]),
        Row::new("send recipient-stanza, a body of 32 bytes", &two, &send(&stanza_of(0), &bytes(32))),
        Row::new("send file-key", &two_identity, &send("file-key 0", &bytes(16))),
        Row::new("send error", &two, &send("error internal", b"No token")),
        Row::new("send an unknown command", &two, &send(UNKNOWN, b"")),
        Row::new("send done", &two, &send("done", b"")),
        Row::new("receive the response to msg", &msg_awaits, &[response]).beside_plain_c(),
        Row {
            times: TIMES,
            ..Row::new("send msg and receive its response", &two, &pairs).beside_plain_c().at_most(1_700.0)
        },
    ];
    for row in &mut rows {
        row.name.insert_str(0, "plugin: ");
    }
    rows
}

fn open(end: End, machine: &'static str, name: &'static str) -> Call {
    Call::Open { end, machine, name }
}

/// Arguments and body of each command of phase one but add-recipient, and of an unknown one.
fn phase_one() -> [(String, Vec<u8>); 5] {
    let identity = bech32_text(Kind::Identity, NAME.as_bytes(), &bytes(26), 68);
    [
        (format!("add-identity {identity}"), Vec::new()),
        ("wrap-file-key".to_owned(), bytes(16)),
        (stanza_of(0), bytes(32)),
        (UNKNOWN.to_owned(), Vec::new()),
        ("done".to_owned(), Vec::new()),
    ]
}

/// Arguments of as many recipients of 60 characters as there may be, all different.
fn recipients() -> impl Iterator<Item = String> {
    (0..TIMES).map(|number| add_recipient(NAME.as_bytes(), 26, 60, number))
}

/// Those of the commands that ask a client's host.
fn asking() -> [(String, Vec<u8>); 2] {
    [("msg".to_owned(), b"Touch the token".to_vec()), ("confirm WWVz Tm8".to_owned(), b"Go on?".to_vec())]
}

/// The arguments of a stanza for a file.
fn stanza_of(file: usize) -> String {
    format!("recipient-stanza {file} {NAME}")
}

fn received(arguments: &str, body: &[u8]) -> Call {
    Call::Chunk(text(arguments, body))
}

/// 62 recipients of 1,010 characters, one behind the other.
fn long_recipients() -> Call {
    Call::Chunk((0..62).flat_map(|number| text(&add_recipient(NAME.as_bytes(), 620, 1_010, number), b"")).collect())
}

/// A recipient of 1,024 characters.
fn longest_recipient(number: usize) -> String {
    add_recipient(LONG_NAME.as_bytes(), 628, 1_024, number)
}

/// Recipients of 1,024 characters that differ in the last one: each is compared to its end with each before it.
fn other_last_bytes() -> Vec<Call> {
    let mut arguments = longest_recipient(0).into_bytes();
    (b'!'..)
        .take(TIMES)
        .map(|byte| {
            *arguments.last_mut().expect("a recipient") = byte;
            received(std::str::from_utf8(&arguments).expect("ASCII"), b"")
        })
        .collect()
}

/// Arguments of a recipient of a name, with so many characters and a payload of so many bytes, the first of them its number.
fn add_recipient(name: &[u8], payload_len: usize, text_len: usize, number: usize) -> String {
    let mut payload = bytes(payload_len);
    payload[0] = number as u8;
    format!("add-recipient {}", bech32_text(Kind::Recipient, name, &payload, text_len))
}

/// A chunk for each byte of a chunk.
fn in_single_bytes(call: &Call) -> Vec<Call> {
    match call {
        Call::Chunk(bytes) => bytes.iter().map(|byte| Call::Chunk(vec![*byte])).collect(),
        _ => panic!("a chunk"),
    }
}

/// A stanza.
fn text(arguments: &str, body: &[u8]) -> Vec<u8> {
    written(|out| stanza::write(arguments.as_bytes(), body, out).ok())
}

/// A recipient or an identity of so many characters.
fn bech32_text(kind: Kind, name: &[u8], payload: &[u8], text_len: usize) -> String {
    let text = written(|out| bech32::write(kind, name, payload, out).ok());
    assert_eq!(text.len(), text_len);
    String::from_utf8(text).expect("Bech32 is ASCII")
}
