//! Stanza text: reading the first stanza of a text, and writing one (document 01, "Stanza text").
//!
//! What the arguments mean, and whether a body belongs to a command, is not judged here.

use std::ops::Range;

use crate::base64;
use crate::refusal::Refusal;

/// A whole stanza has at most so many bytes.
pub const LIMIT: usize = 8_192;

/// A body line that is not the last has so many characters.
pub const LINE_CHARACTERS: usize = 64;

/// A body line that is not the last carries so many bytes.
pub const LINE_BYTES: usize = 48;

const PREFIX: &[u8] = b"-> ";

/// The first stanza of a text, as `read` found it there.
#[derive(Clone, Debug, PartialEq, Eq)]
pub struct Stanza<'a> {
    text: &'a [u8],
    arguments: Range<usize>,
    body_len: usize,
}

impl<'a> Stanza<'a> {
    /// Where the arguments stand in the text: from the command's first byte up to the first LF.
    #[must_use]
    pub fn argument_range(&self) -> Range<usize> {
        self.arguments.clone()
    }

    /// All arguments, the command first, separated by single spaces.
    #[must_use]
    pub fn arguments(&self) -> &'a [u8] {
        &self.text[self.argument_range()]
    }

    /// The whole stanza.
    #[must_use]
    pub fn text(&self) -> &'a [u8] {
        self.text
    }

    /// How many bytes the decoded body has.
    #[must_use]
    pub fn body_len(&self) -> usize {
        self.body_len
    }

    /// How many bytes of the text the stanza is.
    #[must_use]
    pub fn taken(&self) -> usize {
        self.text.len()
    }

    /// Decodes the body to the front of `out` and gives its length; 15 leaves `out` as it was.
    pub fn decode_body(&self, out: &mut [u8]) -> Result<usize, Refusal> {
        let out = out.get_mut(..self.body_len).ok_or(Refusal::OutputTooShort)?;
        let lines = &self.text[self.arguments.end + 1..];
        let characters = lines.chunks(LINE_CHARACTERS + 1).map(without_last);
        for (line, bytes) in characters.zip(out.chunks_mut(LINE_BYTES)) {
            base64::fill_decoded(line, bytes);
        }
        Ok(self.body_len)
    }
}

/// A line without its LF.
fn without_last(line: &[u8]) -> &[u8] {
    &line[..line.len() - 1]
}

/// Reads the first stanza of the text; what follows it is not looked at.
///
/// 1 at the first byte that no stanza of any length can have there, 3 if 8,192 bytes pass without
/// an end, 2 if the text ends sooner.
pub fn read(text: &[u8]) -> Result<Stanza<'_>, Refusal> {
    let mut reader = Reader::new(text);
    reader.prefix()?;
    let arguments = reader.arguments()?;
    let body_len = reader.body()?;
    let text = &text[..reader.at];
    Ok(Stanza { text, arguments, body_len })
}

/// Goes through a text from the left, each byte once.
struct Reader<'a> {
    /// As much of the text as a stanza may have. So the limit plays no part in 1.
    text: &'a [u8],
    at: usize,
}

impl<'a> Reader<'a> {
    fn new(text: &'a [u8]) -> Self {
        Reader { text: &text[..text.len().min(LIMIT)], at: 0 }
    }

    /// The next byte of a stanza that has not ended: 3 if 8,192 bytes have passed, 2 if the text ends.
    #[inline]
    fn next(&mut self) -> Result<u8, Refusal> {
        let Some(&byte) = self.text.get(self.at) else {
            return Err(self.unended());
        };
        self.at += 1;
        Ok(byte)
    }

    #[cold]
    fn unended(&self) -> Refusal {
        if self.at == LIMIT {
            Refusal::TooLong
        } else {
            Refusal::NotEnded
        }
    }

    fn prefix(&mut self) -> Result<(), Refusal> {
        for &expected in PREFIX {
            if self.next()? != expected {
                return Err(Refusal::NotAStanza);
            }
        }
        Ok(())
    }

    /// One or more arguments up to the LF. A space or LF is good only behind an argument's byte.
    fn arguments(&mut self) -> Result<Range<usize>, Refusal> {
        let start = self.at;
        let mut inside = false;
        loop {
            match self.next()? {
                b'!'..=b'~' => inside = true,
                b' ' if inside => inside = false,
                b'\n' if inside => return Ok(start..self.at - 1),
                _ => return Err(Refusal::NotAStanza),
            }
        }
    }

    /// The body's lines up to the first that has fewer than 64 characters; gives the decoded length.
    fn body(&mut self) -> Result<usize, Refusal> {
        let mut body_len = 0;
        loop {
            let line_len = self.body_line()?;
            body_len += line_len;
            if line_len < LINE_BYTES {
                return Ok(body_len);
            }
        }
    }

    /// One line and its LF; gives the decoded length, which is 48 exactly for 64 characters.
    ///
    /// A 65th character is no LF, so it is 1 at once, as "=" is. Characters that can't stand last
    /// (1 mod 4 of them, or unused bits not zero) are a fault of the LF.
    fn body_line(&mut self) -> Result<usize, Refusal> {
        let start = self.at;
        let mut byte = self.next()?;
        while base64::is_character(byte) && self.at - start <= LINE_CHARACTERS {
            byte = self.next()?;
        }
        if byte != b'\n' {
            return Err(Refusal::NotAStanza);
        }
        base64::ended_len(&self.text[start..self.at - 1]).ok_or(Refusal::NotAStanza)
    }
}

/// Writes a stanza to the front of `out` and gives its length. `arguments` has all of them, the
/// command first, separated by single spaces.
///
/// 17 for no argument, an empty one, a byte outside 33 to 126, or more than 8,192 bytes; then 15.
/// A refusal leaves `out` as it was.
pub fn write(arguments: &[u8], body: &[u8], out: &mut [u8]) -> Result<usize, Refusal> {
    if !are_arguments(arguments) {
        return Err(Refusal::Unwritable);
    }
    let len = text_len(arguments, body).ok_or(Refusal::Unwritable)?;
    let out = out.get_mut(..len).ok_or(Refusal::OutputTooShort)?;

    let (first_line, lines) = out.split_at_mut(PREFIX.len() + arguments.len() + 1);
    let (prefix, rest) = first_line.split_at_mut(PREFIX.len());
    prefix.copy_from_slice(PREFIX);
    rest[..arguments.len()].copy_from_slice(arguments);
    rest[arguments.len()] = b'\n';
    write_body(body, lines);
    Ok(len)
}

/// Whether the text is one or more arguments, separated by single spaces.
fn are_arguments(text: &[u8]) -> bool {
    let is_argument = |word: &[u8]| !word.is_empty() && word.iter().all(|byte| matches!(byte, b'!'..=b'~'));
    text.split(|&byte| byte == b' ').all(is_argument)
}

/// The length of the whole stanza; none if it is more than 8,192.
fn text_len(arguments: &[u8], body: &[u8]) -> Option<usize> {
    // Each of the two alone rules out what could overflow below.
    if arguments.len() > LIMIT || body.len() > LIMIT {
        return None;
    }
    let body_lines = body.len() / LINE_BYTES + 1;
    let lines = base64::encoded_len(body.len()) + body_lines;
    let len = PREFIX.len() + arguments.len() + 1 + lines;
    (len <= LIMIT).then_some(len)
}

/// Fills the buffer with the body's lines; an empty line stands behind a last piece of 48 bytes.
fn write_body(body: &[u8], mut lines: &mut [u8]) {
    let pieces = body.chunks_exact(LINE_BYTES);
    let last = pieces.remainder();
    for piece in pieces.chain([last]) {
        let (line, rest) = lines.split_at_mut(base64::encoded_len(piece.len()) + 1);
        let (end, characters) = line.split_last_mut().expect("a line has its LF");
        base64::fill_encoded(piece, characters);
        *end = b'\n';
        lines = rest;
    }
}

#[cfg(test)]
mod tests {
    use super::Refusal::{NotAStanza, NotEnded, OutputTooShort, TooLong, Unwritable};
    use super::*;

    fn written(arguments: &[u8], body: &[u8]) -> Vec<u8> {
        let mut out = vec![0; LIMIT];
        let len = write(arguments, body, &mut out).expect("writable");
        out.truncate(len);
        out
    }

    fn body_of(stanza: &Stanza) -> Vec<u8> {
        let mut body = vec![0; stanza.body_len()];
        assert_eq!(stanza.decode_body(&mut body), Ok(body.len()));
        body
    }

    fn refused(text: &[u8]) -> Refusal {
        read(text).expect_err("refused")
    }

    /// A text of the given length that is alive all the way: the first line only.
    fn unfinished(len: usize) -> Vec<u8> {
        let mut text = b"-> ".to_vec();
        text.resize(len, b'a');
        text
    }

    /// A text of the given length that is alive all the way: inside the body if it is long enough.
    fn unfinished_body(len: usize) -> Vec<u8> {
        let mut text = b"-> a\n".to_vec();
        while text.len() < len {
            text.extend([b'A'; LINE_CHARACTERS]);
            text.push(b'\n');
        }
        text.truncate(len);
        text
    }

    /// A whole stanza of the given length with an empty body.
    fn whole(len: usize) -> Vec<u8> {
        [unfinished(len - 2), b"\n\n".to_vec()].concat()
    }

    #[test]
    fn worked_example_done() {
        let stanza = read(b"-> done\n\n").unwrap();
        assert_eq!(stanza.taken(), 9);
        assert_eq!(stanza.arguments(), b"done");
        assert_eq!(stanza.argument_range(), 3..7);
        assert_eq!(stanza.body_len(), 0);
        assert_eq!(refused(b"-> done\n"), NotEnded);
    }

    #[test]
    fn worked_example_two_spaces() {
        assert_eq!(refused(b"-> a  b\n\n"), NotAStanza);
        assert_eq!(refused(b"-> a  "), NotAStanza);
        assert_eq!(refused(b"-> a "), NotEnded);
    }

    #[test]
    fn worked_example_wrap_file_key() {
        let text = written(b"wrap-file-key", &[0; 16]);
        assert_eq!(text, b"-> wrap-file-key\nAAAAAAAAAAAAAAAAAAAAAA\n");
        assert_eq!(text.len(), 40);
        assert_eq!(body_of(&read(&text).unwrap()), [0; 16]);
    }

    #[test]
    fn worked_example_47_and_48_body_bytes() {
        let line = |len| [vec![b'A'; len], b"\n".to_vec()].concat();
        assert_eq!(written(b"a", &[0; 47])[5..], line(63));
        assert_eq!(written(b"a", &[0; 48])[5..], [line(64), line(0)].concat());
        assert_eq!(written(b"a", &[0; 49])[5..], [line(64), line(2)].concat());
    }

    #[test]
    fn what_is_written_reads_back() {
        for len in (0..=300).chain([1_000, 5_999]) {
            let body: Vec<u8> = (0..len).map(|at| (at * 89 + len) as u8).collect();
            let mut text = written(b"ok ! ~~ x", &body);
            let whole = text.len();
            text.extend(b"\r-> not looked at");
            let stanza = read(&text).unwrap();
            assert_eq!(stanza.taken(), whole);
            assert_eq!(stanza.arguments(), b"ok ! ~~ x");
            assert_eq!(body_of(&stanza), body);
        }
    }

    #[test]
    fn a_stanza_cut_anywhere_has_not_ended() {
        let text = written(b"confirm eWVz bm8", &[7; 100]);
        for len in 0..text.len() {
            assert_eq!(refused(&text[..len]), NotEnded, "{len}");
        }
    }

    #[test]
    fn first_line() {
        let bad: [&[u8]; 12] = [
            b"x", b"- ", b"->a", b"->\n", b"->  ", b"-> \n", b"-> a \n", b"-> a\r", b"-> a\0", b"-> a\x7f",
            b"-> a\x80", b"\n",
        ];
        for text in bad {
            assert_eq!(refused(text), NotAStanza, "{text:?}");
        }
        for text in [b"".as_slice(), b"-", b"->", b"-> ", b"-> a", b"-> a\n"] {
            assert_eq!(refused(text), NotEnded, "{text:?}");
        }
    }

    #[test]
    fn a_bad_ending_is_a_fault_of_the_lf() {
        for body in ["A", "AB", "AAB", "AAAAA", "AAAAAB"] {
            let text = format!("-> a\n{body}");
            assert_eq!(refused(text.as_bytes()), NotEnded, "{body}");
            assert_eq!(refused((text + "\n").as_bytes()), NotAStanza, "{body}");
        }
    }

    #[test]
    fn padding_is_refused_at_once() {
        assert_eq!(refused(b"-> a\nAA="), NotAStanza);
        assert_eq!(refused(b"-> a\n="), NotAStanza);
        assert_eq!(refused(b"-> a\n-"), NotAStanza);
        assert_eq!(refused(b"-> a\nAAAA\r"), NotAStanza);
    }

    #[test]
    fn lines_of_64_characters() {
        let full = unfinished_body(5 + LINE_CHARACTERS);
        assert_eq!(refused(&full), NotEnded);
        let with = |tail: &[u8]| [&full, tail].concat();
        assert_eq!(refused(&with(b"A")), NotAStanza);
        assert_eq!(refused(&with(b"=")), NotAStanza);
        // Another line must come.
        assert_eq!(refused(&with(b"\n")), NotEnded);
        assert_eq!(refused(&with(b"\n-> ")), NotAStanza);
        assert_eq!(read(&with(b"\n\n")).unwrap().body_len(), 48);
        assert_eq!(read(&with(b"\nAA\n")).unwrap().body_len(), 49);
        // A line of 63 is the last.
        let short = [&full[..5 + 63], b"\nAA\n"].concat();
        assert_eq!(read(&short).unwrap().taken(), 5 + 64);
    }

    #[test]
    fn exactly_8192_bytes_are_good() {
        assert_eq!(read(&whole(LIMIT)).unwrap().taken(), LIMIT);
        assert_eq!(refused(&whole(LIMIT + 1)), TooLong);
        let followed = [whole(LIMIT), vec![0; 10]].concat();
        assert_eq!(read(&followed).unwrap().taken(), LIMIT);
    }

    #[test]
    fn unfinished_texts_near_the_limit() {
        for text in [unfinished, unfinished_body] {
            assert_eq!(refused(&text(LIMIT - 1)), NotEnded);
            assert_eq!(refused(&text(LIMIT)), TooLong);
            assert_eq!(refused(&text(LIMIT + 1)), TooLong);
        }
    }

    #[test]
    fn a_bad_byte_near_the_limit() {
        for text in [unfinished, unfinished_body] {
            for (at, refusal) in [(8_190, NotAStanza), (8_191, NotAStanza), (8_192, TooLong)] {
                let mut text = text(LIMIT + 2);
                text[at] = b'\r';
                assert_eq!(refused(&text), refusal, "{at}");
                assert_eq!(refused(&text[..=at]), refusal, "{at}");
            }
        }
    }

    #[test]
    fn a_short_buffer_for_the_body_is_left_alone() {
        let text = written(b"a", b"hello");
        let stanza = read(&text).unwrap();
        let mut out = [9; 7];
        assert_eq!(stanza.decode_body(&mut out[..4]), Err(OutputTooShort));
        assert_eq!(out, [9; 7]);
        assert_eq!(stanza.decode_body(&mut out), Ok(5));
        assert_eq!(&out, b"hello\x09\x09");
    }

    #[test]
    fn unwritable_arguments() {
        let bad: [&[u8]; 9] = [b"", b" ", b" a", b"a ", b"a  b", b"a\n", b"a\rb", b"a\x7f", b"a\xff"];
        for arguments in bad {
            assert_eq!(write(arguments, b"", &mut [0; 99]), Err(Unwritable));
            // 17 before 15.
            assert_eq!(write(arguments, b"", &mut []), Err(Unwritable));
        }
    }

    #[test]
    fn unwritable_lengths() {
        let mut out = vec![9; LIMIT + 100];
        // "-> ", two LFs and 8,187 bytes of arguments.
        assert_eq!(write(&[b'a'; 8_187], b"", &mut out), Ok(LIMIT));
        assert_eq!(read(&out).unwrap().taken(), LIMIT);
        assert_eq!(write(&[b'a'; 8_188], b"", &mut []), Err(Unwritable));
        assert_eq!(write(b"a", &vec![0; 100_000], &mut []), Err(Unwritable));
        // 125 full lines of 65 bytes and one of 60 and LF, behind 6 bytes: 8,192 in all.
        let body = vec![0; 125 * LINE_BYTES + 45];
        assert_eq!(write(b"aa", &body, &mut out), Ok(LIMIT));
        assert_eq!(write(b"aaa", &body, &mut out), Err(Unwritable));
    }

    #[test]
    fn a_short_buffer_for_the_text_is_left_alone() {
        let mut out = [9; 12];
        assert_eq!(write(b"done", b"", &mut out[..8]), Err(OutputTooShort));
        assert_eq!(out, [9; 12]);
        assert_eq!(write(b"done", b"", &mut out), Ok(9));
        assert_eq!(&out, b"-> done\n\n\x09\x09\x09");
    }
}
