//! One command of phase two: its form (4, 5), what the tables say to it (6, 9, 10, 11), what the plugin end
//! owes (19), and whether there is space (8). Both ends judge by this.

use super::tables::{Addition, Buffers, Cause, Detail, Kind, Tables};
use super::{body, split_word, Machine, FILE_KEY_BYTES};
use crate::base64;
use crate::index;
use crate::profile::Finding;
use crate::refusal::Refusal;
use crate::stanza::Stanza;

/// What a stanza's first argument says in phase two, in the order of the paper's table.
#[derive(Clone, Copy, Debug, PartialEq, Eq)]
pub enum Command {
    Msg,
    Confirm,
    RequestPublic,
    RequestSecret,
    RecipientStanza,
    FileKey,
    Error,
    /// Whatever the machine's table does not name: it is answered unsupported.
    Other,
    Done,
}

impl Command {
    pub const ALL: [Command; 9] = [
        Command::Msg,
        Command::Confirm,
        Command::RequestPublic,
        Command::RequestSecret,
        Command::RecipientStanza,
        Command::FileKey,
        Command::Error,
        Command::Other,
        Command::Done,
    ];

    /// The command that the word is in this machine.
    #[must_use]
    pub fn named(machine: Machine, word: &[u8]) -> Self {
        match (machine, word) {
            (_, b"msg") => Command::Msg,
            (_, b"confirm") => Command::Confirm,
            (_, b"request-public") => Command::RequestPublic,
            (_, b"request-secret") => Command::RequestSecret,
            (Machine::Recipient, b"recipient-stanza") => Command::RecipientStanza,
            (Machine::Identity, b"file-key") => Command::FileKey,
            (_, b"error") => Command::Error,
            (_, b"done") => Command::Done,
            _ => Command::Other,
        }
    }

    /// Whether it is one of the two requests.
    #[must_use]
    pub fn is_request(self) -> bool {
        matches!(self, Command::RequestPublic | Command::RequestSecret)
    }

    /// Whether the client's host answers it: the first three rows of the table.
    #[must_use]
    pub fn asks_the_host(self) -> bool {
        matches!(self, Command::Msg | Command::Confirm) || self.is_request()
    }
}

/// What an accepted command does: it is kept, ends the phase, or is answered and no more.
pub(super) struct Step {
    pub(super) command: Command,
    pub(super) addition: Option<Addition>,
}

/// The command of the stanza; 4, then 5, for a wrong form.
pub(super) fn parse(machine: Machine, stanza: &Stanza) -> Result<Step, Refusal> {
    let (word, arguments) = split_word(stanza.arguments());
    let command = Command::named(machine, word);
    let addition = addition(machine, command, arguments, &body(stanza))?;
    Ok(Step { command, addition })
}

/// What the command would keep; none for those that are kept in no table.
fn addition(
    machine: Machine,
    command: Command,
    arguments: Option<&[u8]>,
    body: &[u8],
) -> Result<Option<Addition>, Refusal> {
    match command {
        Command::RecipientStanza => returned_stanza(arguments, body).map(Some),
        Command::FileKey => returned_key(arguments, body).map(Some),
        Command::Error => error(machine, arguments, body).map(Some),
        Command::Msg | Command::RequestPublic | Command::RequestSecret if arguments.is_some() => {
            Err(Refusal::WrongForm)
        }
        Command::Confirm if !arguments.is_some_and(are_labels) => Err(Refusal::WrongForm),
        Command::Done if arguments.is_some() || !body.is_empty() => Err(Refusal::WrongForm),
        _ => Ok(None),
    }
}

/// Whether the arguments are one or two labels, each in base64.
fn are_labels(arguments: &[u8]) -> bool {
    let labels: Vec<&[u8]> = arguments.split(|&byte| byte == b' ').collect();
    labels.len() <= 2 && labels.iter().all(|label| base64::decoded_len(label).is_some())
}

/// An index, a tag, any more arguments and any body; the payload is as in phase one.
fn returned_stanza(arguments: Option<&[u8]>, body: &[u8]) -> Result<Addition, Refusal> {
    let Some((index, Some(line))) = arguments.map(split_word) else {
        return Err(Refusal::WrongForm);
    };
    let file = index::read(index)?;
    Ok(Addition {
        kind: Kind::Stanza,
        payload: [line, b"\n", body].concat(),
        detail: Detail::Stanza { file },
    })
}

/// An index and a body of 16 bytes.
fn returned_key(arguments: Option<&[u8]>, body: &[u8]) -> Result<Addition, Refusal> {
    match arguments.map(split_word) {
        Some((index, None)) if body.len() == FILE_KEY_BYTES => {
            let file = index::read(index)?;
            Ok(Addition { kind: Kind::Key, payload: body.to_vec(), detail: Detail::Key { file } })
        }
        _ => Err(Refusal::WrongForm),
    }
}

/// What the error names, and any message.
fn error(machine: Machine, arguments: Option<&[u8]>, body: &[u8]) -> Result<Addition, Refusal> {
    let words: Vec<&[u8]> = arguments.unwrap_or_default().split(|&byte| byte == b' ').collect();
    let cause = match (machine, &words[..]) {
        (_, [b"internal"]) => Cause::Internal,
        (_, [b"identity", number]) => Cause::Identity { number: index::read(number)? },
        (Machine::Recipient, [b"recipient", number]) => Cause::Recipient { number: index::read(number)? },
        (Machine::Identity, [b"stanza", file, number]) => {
            Cause::Stanza { file: index::read(file)?, number: index::read(number)? }
        }
        _ => return Err(Refusal::WrongForm),
    };
    Ok(Addition { kind: Kind::Error, payload: body.to_vec(), detail: Detail::Error { cause } })
}

impl Step {
    fn detail(&self) -> Option<Detail> {
        self.addition.as_ref().map(|addition| addition.detail)
    }

    /// The rules between commands: 6, 9, 10 or 11 if the tables forbid this one.
    pub(super) fn check_rules(&self, tables: &Tables) -> Result<(), Refusal> {
        match self.detail() {
            Some(Detail::Stanza { file }) => check_stanza(tables, file),
            Some(Detail::Key { file }) => check_key(tables, file),
            Some(Detail::Error { cause }) => check_error(tables, cause),
            _ => Ok(()),
        }
    }

    /// The plugin end's own rules: 19 if an invalid entry or a nonconforming stanza holds the command back,
    /// or it is an error for an unknown stanza.
    pub(super) fn check_duties(&self, tables: &Tables) -> Result<(), Refusal> {
        let held_back = match self.detail() {
            Some(Detail::Stanza { .. }) => has_invalid(tables),
            Some(Detail::Key { file }) => has_invalid(tables) || has_nonconforming(tables, file),
            Some(Detail::Error { cause: Cause::Stanza { file, number } }) => is_unknown(tables, file, number),
            _ => self.command == Command::Done && owes_error(tables),
        };
        if held_back {
            return Err(Refusal::HeldBack);
        }
        Ok(())
    }

    /// 8 if the entry has no slot or its buffer is too short.
    pub(super) fn check_space(&self, tables: &Tables, buffers: &Buffers) -> Result<(), Refusal> {
        match &self.addition {
            Some(addition) if !tables.fits(addition, buffers) => Err(Refusal::NoSpace),
            _ => Ok(()),
        }
    }
}

/// recipient-v1: the index is a file key's number, a file gets no more stanzas than there are recipients and
/// identities together, and there is no error.
fn check_stanza(tables: &Tables, file: u32) -> Result<(), Refusal> {
    if !has_number(tables, Kind::FileKey, file) {
        return Err(Refusal::NamesNothing);
    }
    let most = tables.of(Kind::Recipient).len() + tables.of(Kind::Identity).len();
    let of_file = |detail: &Detail| *detail == Detail::Stanza { file };
    if tables.details(Kind::Stanza).filter(of_file).count() >= most {
        return Err(Refusal::TooManyStanzas);
    }
    if !tables.of(Kind::Error).is_empty() {
        return Err(Refusal::WorkAndError);
    }
    Ok(())
}

/// identity-v1: phase one has named the file, it has no key yet, and there is no error for one of its stanzas.
fn check_key(tables: &Tables, file: u32) -> Result<(), Refusal> {
    if !headers(tables).any(|header| header.0 == file) {
        return Err(Refusal::NamesNothing);
    }
    if has_key(tables, file) {
        return Err(Refusal::SecondKey);
    }
    let of_file = |cause| matches!(cause, Cause::Stanza { file: other, .. } if other == file);
    if causes(tables).any(of_file) {
        return Err(Refusal::WorkAndError);
    }
    Ok(())
}

/// What the error names is there. In recipient-v1 no stanza was returned, and in identity-v1 no key for the
/// file of the stanza that it names; the other machine's table is always empty.
fn check_error(tables: &Tables, cause: Cause) -> Result<(), Refusal> {
    if !names_something(tables, cause) {
        return Err(Refusal::NamesNothing);
    }
    let has_work = matches!(cause, Cause::Stanza { file, .. } if has_key(tables, file));
    if has_work || !tables.of(Kind::Stanza).is_empty() {
        return Err(Refusal::WorkAndError);
    }
    Ok(())
}

/// A header stanza is numbered within its file (document 02, No. 2).
fn names_something(tables: &Tables, cause: Cause) -> bool {
    match cause {
        Cause::Internal => true,
        Cause::Identity { number } => has_number(tables, Kind::Identity, number),
        Cause::Recipient { number } => has_number(tables, Kind::Recipient, number),
        Cause::Stanza { file, number } => finding(tables, file, number).is_some(),
    }
}

fn has_number(tables: &Tables, kind: Kind, number: u32) -> bool {
    (number as usize) < tables.of(kind).len()
}

fn has_key(tables: &Tables, file: u32) -> bool {
    tables.details(Kind::Key).any(|detail| detail == Detail::Key { file })
}

/// What the errors so far name.
fn causes(tables: &Tables) -> impl Iterator<Item = Cause> + '_ {
    tables.details(Kind::Error).filter_map(|detail| match detail {
        Detail::Error { cause } => Some(cause),
        _ => None,
    })
}

/// The file and the finding of each header stanza.
fn headers(tables: &Tables) -> impl Iterator<Item = (u32, Finding)> + '_ {
    tables.details(Kind::Header).filter_map(|detail| match detail {
        Detail::Header { file, finding } => Some((file, finding)),
        _ => None,
    })
}

/// What the stanza check found of each header stanza of the file, in the order received.
fn findings(tables: &Tables, file: u32) -> impl Iterator<Item = Finding> + '_ {
    headers(tables).filter(move |header| header.0 == file).map(|header| header.1)
}

/// The finding of the file's header stanza with this number.
fn finding(tables: &Tables, file: u32, number: u32) -> Option<Finding> {
    findings(tables, file).nth(number as usize)
}

/// Whether any recipient or identity is invalid; an error sent for it does not change that.
fn has_invalid(tables: &Tables) -> bool {
    let mut both = tables.details(Kind::Recipient).chain(tables.details(Kind::Identity));
    both.any(is_invalid)
}

fn is_invalid(detail: Detail) -> bool {
    matches!(detail, Detail::Text { fault: Some(_) })
}

/// Whether any header stanza of the file is nonconforming.
fn has_nonconforming(tables: &Tables, file: u32) -> bool {
    findings(tables, file).any(|finding| finding == Finding::Nonconforming)
}

fn is_unknown(tables: &Tables, file: u32, number: u32) -> bool {
    finding(tables, file, number) == Some(Finding::Unknown)
}

/// Whether an invalid entry or a nonconforming stanza has not had its own error.
fn owes_error(tables: &Tables) -> bool {
    let mut faults = faults(tables);
    faults.any(|fault| causes(tables).all(|cause| cause != fault))
}

/// Each invalid entry and each nonconforming stanza, as its error names it.
fn faults(tables: &Tables) -> impl Iterator<Item = Cause> + '_ {
    let invalid = |kind| (0..).zip(tables.details(kind)).filter(|entry| is_invalid(entry.1));
    let recipients = invalid(Kind::Recipient).map(|(number, _)| Cause::Recipient { number });
    let identities = invalid(Kind::Identity).map(|(number, _)| Cause::Identity { number });
    recipients.chain(identities).chain(nonconforming(tables))
}

/// Each nonconforming stanza, numbered within its file.
fn nonconforming(tables: &Tables) -> impl Iterator<Item = Cause> + '_ {
    let numbered = headers(tables).enumerate().map(|(place, (file, finding))| {
        let earlier = headers(tables).take(place).filter(|header| header.0 == file).count();
        (Cause::Stanza { file, number: earlier as u32 }, finding)
    });
    numbered.filter(|entry| entry.1 == Finding::Nonconforming).map(|entry| entry.0)
}
