//! Document 01, "Numbers given back", and what document 02 adds: one variant for each fault.

/// Why a call was refused. The discriminant is the paper's number; no refusal is 0.
#[derive(Clone, Copy, Debug, PartialEq, Eq)]
#[repr(u8)]
pub enum Refusal {
    /// Not a stanza.
    NotAStanza = 1,
    /// Stanza not ended; of a session: the input was declared ended before the conversation has.
    NotEnded = 2,
    /// More than 8,192 bytes.
    TooLong = 3,
    /// Known command or done with wrong arguments, labels or body.
    WrongForm = 4,
    /// Index badly written or too large.
    BadIndex = 5,
    /// Index names nothing.
    NamesNothing = 6,
    /// Header stanza index falls.
    IndexFalls = 7,
    /// No slot, or buffer too short.
    NoSpace = 8,
    /// Second key for a file.
    SecondKey = 9,
    /// Too many stanzas for a file.
    TooManyStanzas = 10,
    /// Work and error together.
    WorkAndError = 11,
    /// Response doesn't fit.
    UnfitResponse = 12,
    /// Session closed or ended.
    SessionOver = 13,
    /// A command while an answer is due, an answer while none is, or a call of the other phase.
    OutOfTurn = 14,
    /// Output longer than the lent buffer, or more than 8,192 bytes to be kept back.
    OutputTooShort = 15,
    /// Text isn't a recipient (or identity): a bad character, case or length, no separator, another human part.
    NotAnEntry = 16,
    /// Argument, name or length that can't be written.
    Unwritable = 17,
    /// Neither machine's name.
    UnknownMachine = 18,
    /// Plugin end: held back by an invalid entry or nonconforming stanza, or error for an unknown stanza.
    HeldBack = 19,
    /// A recipient whose text an earlier one has.
    RepeatedRecipient = 20,
    /// Text isn't a recipient (or identity): its checksum fails.
    BadChecksum = 21,
    /// Text isn't a recipient (or identity): bits are left over.
    LeftoverBits = 22,
}

impl Refusal {
    /// The paper's number.
    #[must_use]
    pub fn number(self) -> u8 {
        self as u8
    }
}

#[cfg(test)]
mod tests {
    use super::Refusal::{self, *};

    #[test]
    fn numbers_run_from_1_to_22() {
        let in_order: [Refusal; 22] = [
            NotAStanza, NotEnded, TooLong, WrongForm, BadIndex, NamesNothing, IndexFalls, NoSpace, SecondKey,
            TooManyStanzas, WorkAndError, UnfitResponse, SessionOver, OutOfTurn, OutputTooShort, NotAnEntry,
            Unwritable, UnknownMachine, HeldBack, RepeatedRecipient, BadChecksum, LeftoverBits,
        ];
        for (before, refusal) in in_order.into_iter().enumerate() {
            assert_eq!(usize::from(refusal.number()), before + 1);
        }
    }
}
