//! What `show` prints, and the words of commands, responses and findings (REPLAY.md).

use super::Answer;
use crate::profile::Finding;
use crate::refusal::Refusal;
use crate::session::{phase_one, phase_two};
use crate::session::{Buffers, Cause, Detail, Kind, Phase, Response, Session, Tables, What};

/// The word for what a plugin end has received.
pub(super) fn what_word(what: What) -> &'static str {
    match what {
        What::Command(command) => phase_one_word(command),
        What::Response(response) => response_word(response),
    }
}

/// The command's word, or other.
fn phase_one_word(command: phase_one::Command) -> &'static str {
    use phase_one::Command;
    match command {
        Command::AddRecipient => "add-recipient",
        Command::AddIdentity => "add-identity",
        Command::WrapFileKey => "wrap-file-key",
        Command::RecipientStanza => "recipient-stanza",
        Command::Done => "done",
        Command::Other => "other",
    }
}

/// The command's word, or other.
pub(super) fn phase_two_word(command: phase_two::Command) -> &'static str {
    use phase_two::Command;
    match command {
        Command::Msg => "msg",
        Command::Confirm => "confirm",
        Command::RequestPublic => "request-public",
        Command::RequestSecret => "request-secret",
        Command::RecipientStanza => "recipient-stanza",
        Command::FileKey => "file-key",
        Command::Error => "error",
        Command::Done => "done",
        Command::Other => "other",
    }
}

/// The one word for a response or a reply.
pub(super) fn response_word(response: Response) -> &'static str {
    match response {
        Response::Ok => "ok",
        Response::Yes => "yes",
        Response::No => "no",
        Response::Fail => "fail",
        Response::Unsupported => "unsupported",
    }
}

/// The word for what the stanza check finds.
pub(super) fn finding_word(finding: Finding) -> &'static str {
    match finding {
        Finding::Conforming => "conforming",
        Finding::Nonconforming => "nonconforming",
        Finding::Unknown => "unknown",
    }
}

/// The phase, what is awaited, a line for each entry, and the end.
pub(super) fn show(session: &Session, buffers: &Buffers) -> Answer {
    let answer = Answer::words(phase_line(session.phase())).line("awaits");
    let answer = answer.word(session.awaits().map_or("-", phase_two_word));
    let answer = show_in_order(answer, session.tables(), buffers);
    let answer = show_by_file(answer, Kind::Stanza, session.tables(), buffers);
    show_by_file(answer, Kind::Key, session.tables(), buffers).line("end")
}

fn phase_line(phase: Phase) -> &'static str {
    match phase {
        Phase::One => "phase one",
        Phase::Two => "phase two",
        Phase::Ended => "phase ended",
        Phase::Closed => "phase closed",
    }
}

/// The kinds whose entries are numbered over the session.
fn show_in_order(mut answer: Answer, tables: &Tables, buffers: &Buffers) -> Answer {
    for (kind, word) in [
        (Kind::Recipient, "recipient"),
        (Kind::Identity, "identity"),
        (Kind::FileKey, "file-key"),
        (Kind::Header, "header"),
        (Kind::Error, "error"),
    ] {
        for (number, detail) in (0..).zip(tables.details(kind)) {
            let payload = tables.payload(kind, number, buffers);
            answer = show_entry(answer.line(word).number(number), detail, payload);
        }
    }
    answer
}

/// What stands behind an entry's number.
fn show_entry(answer: Answer, detail: Detail, payload: &[u8]) -> Answer {
    match detail {
        Detail::Text { fault } => answer.bytes(payload).word(&mark_word(fault)),
        Detail::Header { file, finding } => {
            answer.number(file.into()).bytes(payload).word(finding_word(finding))
        }
        Detail::Error { cause } => answer.word(&cause_word(cause)).bytes(payload),
        Detail::FileKey | Detail::Stanza { .. } | Detail::Key { .. } => answer.bytes(payload),
    }
}

/// Whether a recipient or an identity is valid, and if not, why.
fn mark_word(fault: Option<Refusal>) -> String {
    match fault {
        None => "valid".to_string(),
        Some(refusal) => format!("invalid-{}", refusal.number()),
    }
}

/// The arguments that name the cause.
fn cause_word(cause: Cause) -> String {
    match cause {
        Cause::Internal => "internal".to_string(),
        Cause::Identity { number } => format!("identity {number}"),
        Cause::Recipient { number } => format!("recipient {number}"),
        Cause::Stanza { file, number } => format!("stanza {file} {number}"),
    }
}

/// Returned stanzas or keys, files in rising order: stanzas with their number within the file, a key with its
/// file alone.
fn show_by_file(mut answer: Answer, kind: Kind, tables: &Tables, buffers: &Buffers) -> Answer {
    let mut entries: Vec<(u32, u64)> = (0..).zip(tables.details(kind)).filter_map(file_and_place).collect();
    entries.sort_unstable();
    let mut number = 0;
    for (at, &(file, place)) in entries.iter().enumerate() {
        number = if at > 0 && entries[at - 1].0 == file { number + 1 } else { 0 };
        answer = match kind {
            Kind::Key => answer.line("key").number(file.into()),
            _ => answer.line("stanza").number(file.into()).number(number),
        };
        answer = answer.bytes(tables.payload(kind, place, buffers));
    }
    answer
}

/// The file of a returned stanza or key, and the entry's place in its table.
fn file_and_place((place, detail): (u64, Detail)) -> Option<(u32, u64)> {
    match detail {
        Detail::Stanza { file } | Detail::Key { file } => Some((file, place)),
        _ => None,
    }
}
