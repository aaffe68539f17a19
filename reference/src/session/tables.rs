//! What both ends keep: a table for each kind, its payloads in a lent buffer of the kind's own.

use crate::bech32;
use crate::profile::Finding;
use crate::refusal::Refusal;

/// How many kinds of entries there are.
pub const KINDS: usize = 7;

/// What an entry is; each kind has its own numbering from 0 and its own buffer. The last three belong to
/// phase two: errors, returned stanzas and returned keys.
#[derive(Clone, Copy, Debug, PartialEq, Eq)]
pub enum Kind {
    Recipient,
    Identity,
    FileKey,
    Header,
    Error,
    Stanza,
    Key,
}

impl Kind {
    /// How many slots (the paper's "places") the kind's table has.
    #[must_use]
    pub fn slots(self) -> usize {
        [64, 64, 64, 256, 384, 256, 256][self as usize]
    }
}

impl From<bech32::Kind> for Kind {
    fn from(kind: bech32::Kind) -> Self {
        match kind {
            bech32::Kind::Recipient => Kind::Recipient,
            bech32::Kind::Identity => Kind::Identity,
        }
    }
}

/// The buffers (the paper's "rooms") that a call is lent, one for each kind.
#[derive(Clone, Debug, PartialEq, Eq)]
pub struct Buffers([Vec<u8>; KINDS]);

impl Buffers {
    /// Buffers of the lengths, in the order of the kinds, full of zeros.
    #[must_use]
    pub fn zeros(lens: [usize; KINDS]) -> Self {
        Buffers(lens.map(|len| vec![0; len]))
    }

    /// Gives each buffer another length: its content is kept up to the shorter one, zeros stand behind.
    pub fn resize(&mut self, lens: [usize; KINDS]) {
        for (buffer, len) in self.0.iter_mut().zip(lens) {
            buffer.resize(len, 0);
        }
    }

    /// Puts payloads where they belong.
    pub fn put_all(&mut self, payloads: impl IntoIterator<Item = Payload>) {
        for Payload { kind, start, bytes } in payloads {
            self.0[kind as usize][start..start + bytes.len()].copy_from_slice(&bytes);
        }
    }

    /// The buffer of a kind.
    #[must_use]
    pub fn of(&self, kind: Kind) -> &[u8] {
        &self.0[kind as usize]
    }
}

/// What an accepted command left: where its payload lies in the kind's buffer, and what else is kept of it.
#[derive(Clone, Copy, Debug, PartialEq, Eq)]
pub struct Entry {
    start: usize,
    len: usize,
    pub detail: Detail,
}

/// What is kept beside the payload; it was made when the command was accepted.
#[derive(Clone, Copy, Debug, PartialEq, Eq)]
pub enum Detail {
    /// Of a recipient or an identity: why it is not one of the session's plugin; the paper's "unsound" is an
    /// entry that has a fault, "sound" (here: valid) one that has none.
    Text { fault: Option<Refusal> },
    /// Of a file key.
    FileKey,
    /// Of a header stanza: its file's index, and what the stanza check found.
    Header { file: u32, finding: Finding },
    /// Of an error: what it names.
    Error { cause: Cause },
    /// Of a returned stanza.
    Stanza { file: u32 },
    /// Of a returned key.
    Key { file: u32 },
}

/// What an error names.
#[derive(Clone, Copy, Debug, PartialEq, Eq)]
pub enum Cause {
    Internal,
    Identity {
        number: u32,
    },
    Recipient {
        number: u32,
    },
    /// A header stanza, by its file and its number among those of the file.
    Stanza {
        file: u32,
        number: u32,
    },
}

/// A command's entry before it has a slot.
#[derive(Clone, Debug, PartialEq, Eq)]
pub struct Addition {
    pub kind: Kind,
    pub payload: Vec<u8>,
    pub detail: Detail,
}

/// The payload of an entry that has its slot, and where it belongs in the kind's buffer.
#[derive(Clone, Debug, PartialEq, Eq)]
pub struct Payload {
    kind: Kind,
    start: usize,
    bytes: Vec<u8>,
}

/// The entries of each kind, in the order of acceptance.
#[derive(Clone, Debug, Default, PartialEq, Eq)]
pub struct Tables([Vec<Entry>; KINDS]);

impl Tables {
    /// The table of a kind; an entry's number is its place here.
    #[must_use]
    pub fn of(&self, kind: Kind) -> &[Entry] {
        &self.0[kind as usize]
    }

    /// What is kept beside the payloads of a kind, in order.
    pub fn details(&self, kind: Kind) -> impl Iterator<Item = Detail> + '_ {
        self.of(kind).iter().map(|entry| entry.detail)
    }

    /// Whether there is a slot, and the payloads so far and this one are together no longer than the
    /// buffer lent now.
    #[must_use]
    pub fn fits(&self, addition: &Addition, buffers: &Buffers) -> bool {
        let kind = addition.kind;
        let len = self.payload_bytes(kind) + addition.payload.len();
        self.of(kind).len() < kind.slots() && len <= buffers.of(kind).len()
    }

    /// Keeps an entry that fits; its payload belongs directly behind the one before.
    #[must_use]
    pub fn keep(&mut self, addition: Addition) -> Payload {
        let Addition { kind, payload: bytes, detail } = addition;
        let start = self.payload_bytes(kind);
        self.0[kind as usize].push(Entry { start, len: bytes.len(), detail });
        Payload { kind, start, bytes }
    }

    /// The payload of an entry as the buffer lent now shows it; empty if there is no such entry or the
    /// buffer is too short for it.
    #[must_use]
    pub fn payload<'b>(&self, kind: Kind, number: u64, buffers: &'b Buffers) -> &'b [u8] {
        let entry = usize::try_from(number).ok().and_then(|number| self.of(kind).get(number));
        let part = entry.and_then(|entry| buffers.of(kind).get(entry.start..entry.start + entry.len));
        part.unwrap_or_default()
    }

    /// The payload bytes of a kind so far, whatever buffer is lent now.
    fn payload_bytes(&self, kind: Kind) -> usize {
        self.of(kind).iter().map(|entry| entry.len).sum()
    }
}

#[cfg(test)]
mod tests {
    use super::*;

    fn file_key(payload: &[u8]) -> Addition {
        Addition { kind: Kind::FileKey, payload: payload.to_vec(), detail: Detail::FileKey }
    }

    /// Tables and buffers after keeping the payloads.
    fn kept(payloads: &[&[u8]], len: usize) -> (Tables, Buffers) {
        let mut tables = Tables::default();
        let mut buffers = Buffers::zeros([len; KINDS]);
        for payload in payloads {
            assert!(tables.fits(&file_key(payload), &buffers));
            buffers.put_all([tables.keep(file_key(payload))]);
        }
        (tables, buffers)
    }

    #[test]
    fn payloads_lie_one_behind_the_other() {
        let (tables, buffers) = kept(&[b"abc", b"", b"de"], 6);
        assert_eq!(buffers.of(Kind::FileKey), b"abcde\0");
        assert_eq!(buffers.of(Kind::Recipient), [0; 6]);
        for (number, payload) in [b"abc".as_slice(), b"", b"de", b""].iter().enumerate() {
            assert_eq!(tables.payload(Kind::FileKey, number as u64, &buffers), *payload);
        }
        assert_eq!(tables.payload(Kind::FileKey, u64::MAX, &buffers), b"");
        assert_eq!(tables.payload(Kind::Identity, 0, &buffers), b"");
    }

    #[test]
    fn a_buffer_exactly_long_enough() {
        let (tables, buffers) = kept(&[b"abc"], 5);
        assert!(tables.fits(&file_key(b"de"), &buffers));
        assert!(!tables.fits(&file_key(b"def"), &buffers));
    }

    #[test]
    fn a_buffer_that_became_shorter() {
        let (tables, mut buffers) = kept(&[b"abc", b"de"], 6);
        buffers.resize([4; KINDS]);
        assert_eq!(tables.payload(Kind::FileKey, 0, &buffers), b"abc");
        assert_eq!(tables.payload(Kind::FileKey, 1, &buffers), b"");
        assert!(!tables.fits(&file_key(b""), &buffers));
        buffers.resize([6; KINDS]);
        assert_eq!(tables.payload(Kind::FileKey, 1, &buffers), b"d\0");
        assert!(tables.fits(&file_key(b"f"), &buffers));
    }

    #[test]
    fn slots() {
        let (tables, buffers) = kept(&[b"".as_slice(); 64], 6);
        assert!(!tables.fits(&file_key(b""), &buffers));
        let header = Detail::Header { file: 0, finding: Finding::Unknown };
        assert!(tables.fits(&Addition { kind: Kind::Header, payload: vec![], detail: header }, &buffers));
    }
}
