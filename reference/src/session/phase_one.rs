//! One command of phase one: its form (4, 5) and what the tables say to it (7, 20, 8). Both ends judge by this.

use super::tables::{Addition, Buffers, Detail, Kind};
use super::{body, split_word, Machine, Session, FILE_KEY_BYTES};
use crate::bech32;
use crate::index;
use crate::profile;
use crate::refusal::Refusal;
use crate::stanza::Stanza;

/// What a stanza's first argument says in phase one.
#[derive(Clone, Copy, Debug, PartialEq, Eq)]
pub enum Command {
    AddRecipient,
    AddIdentity,
    WrapFileKey,
    RecipientStanza,
    Done,
    /// Whatever the machine's table does not name: it is ignored.
    Other,
}

impl Command {
    /// The command that the word is in this machine.
    #[must_use]
    pub fn named(machine: Machine, word: &[u8]) -> Self {
        match (machine, word) {
            (Machine::Recipient, b"add-recipient") => Command::AddRecipient,
            (_, b"add-identity") => Command::AddIdentity,
            (Machine::Recipient, b"wrap-file-key") => Command::WrapFileKey,
            (Machine::Identity, b"recipient-stanza") => Command::RecipientStanza,
            (_, b"done") => Command::Done,
            _ => Command::Other,
        }
    }
}

/// What an accepted command does: it is kept, ends the phase, or does nothing.
pub(super) struct Step {
    pub(super) command: Command,
    pub(super) addition: Option<Addition>,
}

/// What the stanza does to the session; 4, 5, 7, 20 or 8 if it is refused. Nothing is changed yet.
pub(super) fn judge(session: &Session, stanza: &Stanza, buffers: &Buffers) -> Result<Step, Refusal> {
    let (word, arguments) = split_word(stanza.arguments());
    let command = Command::named(session.machine, word);
    let addition = addition(command, session, arguments, &body(stanza))?;
    if let Some(addition) = &addition {
        if falls(session, addition.detail) {
            return Err(Refusal::IndexFalls);
        }
        if repeats(session, addition, buffers) {
            return Err(Refusal::RepeatedRecipient);
        }
        if !session.tables.fits(addition, buffers) {
            return Err(Refusal::NoSpace);
        }
    }
    Ok(Step { command, addition })
}

/// What the command would keep: none for done and for other commands; 4, then 5, for a wrong form.
fn addition(
    command: Command,
    session: &Session,
    arguments: Option<&[u8]>,
    body: &[u8],
) -> Result<Option<Addition>, Refusal> {
    match command {
        Command::AddRecipient => text(session, bech32::Kind::Recipient, arguments, body).map(Some),
        Command::AddIdentity => text(session, bech32::Kind::Identity, arguments, body).map(Some),
        Command::WrapFileKey => file_key(arguments, body).map(Some),
        Command::RecipientStanza => header(session, arguments, body).map(Some),
        Command::Done if arguments.is_some() || !body.is_empty() => Err(Refusal::WrongForm),
        Command::Done | Command::Other => Ok(None),
    }
}

/// One argument and an empty body. Bad Bech32, or another plugin's, is kept with its fault.
fn text(
    session: &Session,
    kind: bech32::Kind,
    arguments: Option<&[u8]>,
    body: &[u8],
) -> Result<Addition, Refusal> {
    match arguments.map(split_word) {
        Some((text, None)) if body.is_empty() => {
            let fault = bech32::fault(kind, text, &session.plugin);
            Ok(Addition { kind: kind.into(), payload: text.to_vec(), detail: Detail::Text { fault } })
        }
        _ => Err(Refusal::WrongForm),
    }
}

/// No arguments and a body of 16 bytes.
fn file_key(arguments: Option<&[u8]>, body: &[u8]) -> Result<Addition, Refusal> {
    if arguments.is_some() || body.len() != FILE_KEY_BYTES {
        return Err(Refusal::WrongForm);
    }
    Ok(Addition { kind: Kind::FileKey, payload: body.to_vec(), detail: Detail::FileKey })
}

/// An index, a tag, any more arguments and any body. The payload is the first line behind the index, its LF
/// included, and the decoded body.
fn header(session: &Session, arguments: Option<&[u8]>, body: &[u8]) -> Result<Addition, Refusal> {
    let Some((index, Some(line))) = arguments.map(split_word) else {
        return Err(Refusal::WrongForm);
    };
    let file = index::read(index)?;
    let finding = profile::check(&session.plugin, line, body);
    let payload = [line, b"\n", body].concat();
    Ok(Addition { kind: Kind::Header, payload, detail: Detail::Header { file, finding } })
}

/// Whether this is a header stanza whose index is below that of the last one accepted.
fn falls(session: &Session, detail: Detail) -> bool {
    let file = |detail| match detail {
        Detail::Header { file, .. } => Some(file),
        _ => None,
    };
    let last = session.tables.of(Kind::Header).last().and_then(|entry| file(entry.detail));
    file(detail).is_some_and(|file| last.is_some_and(|last| file < last))
}

/// Whether this is a recipient that the buffer lent now shows already. An entry that it is too short for is
/// empty, and equals nothing.
fn repeats(session: &Session, addition: &Addition, buffers: &Buffers) -> bool {
    let mut numbers = 0..session.tables.of(Kind::Recipient).len() as u64;
    addition.kind == Kind::Recipient
        && numbers.any(|number| session.tables.payload(Kind::Recipient, number, buffers) == addition.payload)
}
