//! The script's outer form (REPLAY.md, "The script"): lines, words, escapes and numbers.

use std::io::{self, BufRead, ErrorKind};

/// A longer line is a bad line; its LF is not counted.
pub const LINE_LIMIT: usize = 65_536;

/// Reads the next line into `line`, without its LF; false if the input has no more lines.
///
/// Of a line of any length only one byte more than the limit is kept: enough to tell.
pub fn next_line(input: &mut impl BufRead, line: &mut Vec<u8>) -> io::Result<bool> {
    line.clear();
    let mut begun = false;
    loop {
        let chunk = match input.fill_buf() {
            Ok(chunk) => chunk,
            Err(error) if error.kind() == ErrorKind::Interrupted => continue,
            Err(error) => return Err(error),
        };
        if chunk.is_empty() {
            // The last line may lack its LF.
            return Ok(begun);
        }
        begun = true;
        let end = chunk.iter().position(|&byte| byte == b'\n');
        let part = &chunk[..end.unwrap_or(chunk.len())];
        let wanted = LINE_LIMIT + 1 - line.len();
        line.extend(&part[..part.len().min(wanted)]);
        let used = part.len() + usize::from(end.is_some());
        input.consume(used);
        if end.is_some() {
            return Ok(true);
        }
    }
}

/// Whether the line is empty or begins with "#". Skipping comes first: such a line may have any length.
#[must_use]
pub fn is_skipped(line: &[u8]) -> bool {
    matches!(line, [] | [b'#', ..])
}

/// The words of a line, their escapes resolved; none if the line is too long, a word is empty
/// (a leading, trailing or doubled space), or a word is badly written.
#[must_use]
pub fn words(line: &[u8]) -> Option<Vec<Vec<u8>>> {
    if line.len() > LINE_LIMIT {
        return None;
    }
    line.split(|&byte| byte == b' ').map(word).collect()
}

/// The byte string that a word stands for. A raw byte outside 33 to 126 makes it a bad word, and so does
/// a backslash before anything but s n \ x e, or `\x` without two hex digits.
fn word(mut raw: &[u8]) -> Option<Vec<u8>> {
    if raw.is_empty() {
        return None;
    }
    let mut bytes = Vec::with_capacity(raw.len());
    while !raw.is_empty() {
        let (byte, rest) = unescape(raw)?;
        bytes.extend(byte);
        raw = rest;
    }
    Some(bytes)
}

/// The first byte that a raw text stands for, and the text behind it. `\e` may stand anywhere and is no byte.
fn unescape(raw: &[u8]) -> Option<(Option<u8>, &[u8])> {
    match raw {
        [b'\\', b's', rest @ ..] => Some((Some(b' '), rest)),
        [b'\\', b'n', rest @ ..] => Some((Some(b'\n'), rest)),
        [b'\\', b'\\', rest @ ..] => Some((Some(b'\\'), rest)),
        [b'\\', b'e', rest @ ..] => Some((None, rest)),
        [b'\\', b'x', high, low, rest @ ..] => Some((Some(hex(*high)? << 4 | hex(*low)?), rest)),
        [b'\\', ..] => None,
        [byte @ b'!'..=b'~', rest @ ..] => Some((Some(*byte), rest)),
        _ => None,
    }
}

/// The value of a hex digit of either case.
fn hex(digit: u8) -> Option<u8> {
    let value = char::from(digit).to_digit(16)?;
    u8::try_from(value).ok()
}

/// Appends the word that stands for the bytes, as answers print it: hex digits in lower case.
pub fn escape(bytes: &[u8], line: &mut Vec<u8>) {
    if bytes.is_empty() {
        line.extend(b"\\e");
    }
    for &byte in bytes {
        match byte {
            b' ' => line.extend(b"\\s"),
            b'\n' => line.extend(b"\\n"),
            b'\\' => line.extend(b"\\\\"),
            b'!'..=b'~' => line.push(byte),
            _ => line.extend(format!("\\x{byte:02x}").as_bytes()),
        }
    }
}

/// A number: one or more decimal digits, leading zeros allowed, at most the limit.
#[must_use]
pub fn number(word: &[u8], limit: u64) -> Option<u64> {
    if word.is_empty() {
        return None;
    }
    let value = word.iter().try_fold(0u64, |value, &byte| {
        let digit = byte.is_ascii_digit().then(|| u64::from(byte - b'0'))?;
        value.checked_mul(10)?.checked_add(digit)
    })?;
    (value <= limit).then_some(value)
}

#[cfg(test)]
mod tests {
    use super::*;
    use std::io::BufReader;

    fn lines(script: &[u8], chunk: usize) -> Vec<Vec<u8>> {
        let mut input = BufReader::with_capacity(chunk, script);
        let mut lines = Vec::new();
        let mut line = Vec::new();
        while next_line(&mut input, &mut line).unwrap() {
            lines.push(line.clone());
        }
        lines
    }

    #[test]
    fn lines_in_chunks_of_any_length() {
        for chunk in 1..12 {
            assert_eq!(lines(b"", chunk), Vec::<Vec<u8>>::new());
            assert_eq!(lines(b"\n", chunk), [b""]);
            assert_eq!(lines(b"ab\n\ncd", chunk), [b"ab".to_vec(), vec![], b"cd".to_vec()]);
            assert_eq!(lines(b"ab\ncd\n", chunk), [b"ab", b"cd"]);
        }
    }

    #[test]
    fn a_long_line_is_kept_up_to_the_limit_and_one() {
        let script = [vec![b'a'; 3 * LINE_LIMIT], b"\nb".to_vec()].concat();
        let lines = lines(&script, 1_000);
        assert_eq!(lines[0].len(), LINE_LIMIT + 1);
        assert_eq!(lines[1], b"b");
        assert_eq!(words(&lines[0]), None);
        assert_eq!(words(&lines[0][1..]).unwrap()[0].len(), LINE_LIMIT);
    }

    #[test]
    fn skipping() {
        assert!(is_skipped(b"") && is_skipped(b"#") && is_skipped(b"# \\"));
        assert!(!is_skipped(b" #") && !is_skipped(b"index"));
    }

    #[test]
    fn escapes() {
        let good: [(&[u8], &[u8]); 9] = [
            (b"\\e", b""),
            (b"\\e\\e", b""),
            (b"a\\eb", b"ab"),
            (b"\\s\\n\\\\", b" \n\\"),
            (b"\\x00\\x7f\\xfF\\xAa", b"\x00\x7f\xff\xaa"),
            (b"\\x41", b"A"),
            (b"\\\\x41", b"\\x41"),
            (b"\\x5ce", b"\\e"),
            (b"#!~", b"#!~"),
        ];
        for (raw, bytes) in good {
            assert_eq!(word(raw).as_deref(), Some(bytes), "{raw:?}");
        }
    }

    #[test]
    fn bad_words() {
        let bad: [&[u8]; 12] = [
            b"", b"\\", b"a\\", b"\\t", b"\\E", b"\\x", b"\\x4", b"\\xg0", b"\\x0g", b"\t", b"\x7f", b"\x80",
        ];
        for raw in bad {
            assert_eq!(word(raw), None, "{raw:?}");
        }
    }

    #[test]
    fn words_are_separated_by_single_spaces() {
        assert_eq!(words(b"a \\e b").unwrap(), [b"a".as_slice(), b"", b"b"]);
        for line in [b" a".as_slice(), b"a ", b"a  b", b" ", b"a\tb"] {
            assert_eq!(words(line), None, "{line:?}");
        }
    }

    #[test]
    fn every_byte_reads_back_from_its_escape() {
        let bytes: Vec<u8> = (0..=255).collect();
        let mut line = Vec::new();
        escape(&bytes, &mut line);
        assert_eq!(word(&line), Some(bytes));
    }

    #[test]
    fn printed_escapes() {
        let mut line = Vec::new();
        escape(b"", &mut line);
        escape(b" \n\\\r\x7f\xAB!~", &mut line);
        assert_eq!(line, b"\\e\\s\\n\\\\\\x0d\\x7f\\xab!~");
    }

    #[test]
    fn numbers() {
        assert_eq!(number(b"0", 0), Some(0));
        assert_eq!(number(b"0065536", 65_536), Some(65_536));
        assert_eq!(number(b"65537", 65_536), None);
        assert_eq!(number(b"18446744073709551615", u64::MAX), Some(u64::MAX));
        assert_eq!(number(&[b'0'; 500], 9), Some(0));
        for word in [b"".as_slice(), b"-1", b"+1", b"1a", b"1 ", b"18446744073709551616"] {
            assert_eq!(number(word, u64::MAX), None, "{word:?}");
        }
    }
}
