//! Lines for old identity files (document 02, No. 8).

use super::bech32::{other_case, signed, sized, text_of};
use super::commands::{End, MACHINES, PLUGIN};
use super::text::{exchanged, replaced};
use super::Script;
use crate::bech32::{encode, symbols, Kind, ALPHABET, FINAL_VALUE};
use crate::identity_file::{read, LINE_LIMIT};
use crate::script;
use crate::session::KINDS;

/// No output buffer of a script is longer.
const LONGEST_OUTPUT: usize = 65_536;

/// What a line with a native age key begins with.
const SECRET_KEY: &[u8] = b"AGE-SECRET-KEY-1";

/// Plugins whose identities a file may hold side by side.
const PLUGINS: [&[u8]; 7] = [PLUGIN, b"fido2-hmac", b"yubikey", b"a", b"1", b"-", b"+._"];

pub(super) fn sections(script: &mut Script) {
    worked_examples(script);
    single_lines(script);
    every_byte(script);
    secret_keys(script);
    line_lengths(script);
    valid_lines(script);
    faulty_lines(script);
    long_files(script);
    received(script);
    random_files(script);
    bad_lines(script);
}

impl Script {
    fn identity_file(&mut self, text: &[u8], out: usize) {
        self.call("identity-file", &[text, out.to_string().as_bytes()]);
    }

    /// Reads a file with an output buffer of exactly the length, and with one that is a byte too short.
    pub(super) fn identity_file_near(&mut self, text: &[u8]) {
        let len = output_length(text);
        self.identity_file(text, len);
        self.identity_file(text, len - 1);
    }
}

/// How many bytes the commands of a file have that is not refused.
fn output_length(text: &[u8]) -> usize {
    written(text).len()
}

/// The commands of a file that is not refused.
fn written(text: &[u8]) -> Vec<u8> {
    let mut out = vec![0; 2 * LONGEST_OUTPUT];
    let reading = read(text, &mut out).expect("few valid lines");
    out.truncate(reading.written);
    out
}

/// A short identity of a plugin.
fn identity(plugin: &[u8]) -> Vec<u8> {
    text_of(Kind::Identity, plugin, b"")
}

/// A secret key as age writes it.
fn secret_key() -> Vec<u8> {
    encode(b"age-secret-key-", &symbols(&[7; 32]), FINAL_VALUE).to_ascii_uppercase()
}

/// Lines, each with its LF but the last.
pub(super) fn joined(lines: &[Vec<u8>]) -> Vec<u8> {
    lines.join(&b'\n')
}

fn worked_examples(script: &mut Script) {
    script.heading("Identity files: one with every sort of line");
    let lines = [
        b"# created: 2026-11-17".to_vec(),
        text_of(Kind::Identity, b"yubikey", b"12345678\x9a"),
        Vec::new(),
        secret_key(),
        b"# public key: age1".to_vec(),
        text_of(Kind::Identity, b"fido2-hmac", b"\x01\x00fido2-hmac"),
        b"not an identity".to_vec(),
        text_of(Kind::Recipient, b"yubikey", b"12345678"),
        text_of(Kind::Identity, b"yubikey", b"12345678"),
        text_of(Kind::Identity, b"yubikey", b"12345678\x9a"),
    ];
    for text in [joined(&lines), [joined(&lines), b"\n".to_vec()].concat()] {
        script.identity_file_near(&text);
        script.identity_file(&text, LONGEST_OUTPUT);
        script.identity_file(&text, 0);
    }
    script.heading("Identity files: without a valid line");
    for text in
        [b"".as_slice(), b"\n", b"\n\n\n", b"#", b"#\n", b"#\n#\n\n#", b"x", b"x\n", b"AGE-SECRET-KEY-1"]
    {
        script.identity_file_near(text);
        script.identity_file(text, 0);
        script.identity_file(text, 10);
    }
}

/// Lines of each sort: skipped, secret keys, valid, and faulty for each reason.
fn sorts() -> Vec<Vec<u8>> {
    let valid = text_of(Kind::Identity, PLUGIN, b"key");
    let last = valid.len() - 1;
    let mut lines: Vec<Vec<u8>> = PLUGINS.iter().map(|plugin| identity(plugin)).collect();
    lines.extend([
        valid.clone(),
        text_of(Kind::Identity, &[b'n'; 32], b"key"),
        text_of(Kind::Identity, &[b'n'; 33], b"key"),
        text_of(Kind::Identity, b"", b"key"),
        text_of(Kind::Identity, b"a/b", b"key"),
        text_of(Kind::Recipient, PLUGIN, b"key"),
        other_case(&valid),
        other_case(&text_of(Kind::Recipient, PLUGIN, b"key")),
        replaced(&valid, last, b'q'),
        replaced(&valid, last, if valid[last] == b'Q' { b'P' } else { b'Q' }),
        exchanged(&valid, last - 1, last),
        replaced(&valid, last - 8, b'B'),
        valid[1..].to_vec(),
        valid[..last].to_vec(),
        signed(Kind::Identity, PLUGIN, &[0; 1]),
        signed(Kind::Identity, PLUGIN, &[0; 3]),
        signed(Kind::Identity, PLUGIN, &[1; 2]),
        signed(Kind::Identity, PLUGIN, &[31; 8]),
        signed(Kind::Identity, PLUGIN, &[31; 7]),
        secret_key(),
        other_case(&secret_key()),
        SECRET_KEY.to_vec(),
        b"AGE-SECRET-KEY-PQ-1QQ".to_vec(),
        b"#".to_vec(),
        [b"#", valid.as_slice()].concat(),
        [b"# ", SECRET_KEY].concat(),
        b"//".to_vec(),
        b"AGE-PLUGIN-".to_vec(),
        b"1".to_vec(),
        b"x".to_vec(),
    ]);
    lines
}

/// A line of each sort alone, between others, and with what is often trimmed around it.
fn single_lines(script: &mut Script) {
    let around: [(&[u8], &[u8]); 15] = [
        (b"", b""),
        (b"", b"\n"),
        (b"\n", b"\n\n"),
        (b"", b"\r\n"),
        (b"", b"\r"),
        (b" ", b""),
        (b"", b" "),
        (b"\t", b"\n"),
        (b"", b"\t"),
        (b"\r\n", b"\r\n"),
        (b"#", b""),
        (b"\n#\n", b"\n#"),
        (b"\xef\xbb\xbf", b"\n"),
        (b"\x00", b""),
        (b"", b"\x00"),
    ];
    for line in sorts() {
        script.heading("Identity files: a line and what may stand around it");
        for (before, behind) in around {
            script.identity_file(&[before, &line, behind].concat(), 200);
        }
        let valid = identity(b"a");
        script.identity_file_near(&joined(&[valid.clone(), line.clone(), valid.clone()]));
        script.identity_file_near(&joined(&[line.clone(), line.clone(), valid, line, Vec::new()]));
    }
}

/// Each of the 256 bytes as a line, before an identity, and behind one.
fn every_byte(script: &mut Script) {
    let valid = identity(b"a");
    script.heading("Identity files: every byte as a line, before an identity and behind one");
    for byte in 0..=255 {
        script.identity_file(&[byte], 9);
        script.identity_file(&[&[byte], valid.as_slice()].concat(), 60);
        script.identity_file(&[valid.as_slice(), &[byte], b"\n#"].concat(), 60);
    }
}

/// The words before a secret key with each character changed, dropped, or cut there.
fn secret_keys(script: &mut Script) {
    script.heading("Identity files: lines that nearly begin as a secret key does");
    for at in 0..SECRET_KEY.len() {
        script.identity_file(&SECRET_KEY[..at], 9);
        script.identity_file(&[&SECRET_KEY[..at], &SECRET_KEY[at + 1..], b"QQ"].concat(), 9);
        for byte in [b'x', b'1', SECRET_KEY[at].to_ascii_lowercase()] {
            script.identity_file(&[&replaced(SECRET_KEY, at, byte), b"QQ".as_slice()].concat(), 9);
        }
    }
    script.heading("Identity files: what stands behind AGE-SECRET-KEY-1 is not judged");
    for end in
        [b"".as_slice(), b"\n", b"\r\n", b" ", b"\x00\xff", b"1", b"b", b"BIO1qQ", b"\nAGE-SECRET-KEY-1"]
    {
        script.identity_file(&[SECRET_KEY, end].concat(), 9);
    }
    script.heading("Identity files: many secret keys");
    for count in [63, 64, 65, 300] {
        let mut lines = vec![SECRET_KEY.to_vec(); count];
        lines.insert(count / 2, identity(b"a"));
        script.identity_file_near(&joined(&lines));
    }
}

/// Lines of 1,023 to 1,026 bytes of each sort, alone and with an identity behind them.
fn line_lengths(script: &mut Script) {
    script.heading("Identity files: lines of 1,023 to 1,026 bytes");
    let valid = identity(b"a");
    for len in LINE_LIMIT - 1..=LINE_LIMIT + 2 {
        let (_, _, long) = sized(script, Kind::Identity, len);
        let mut lines = vec![long.clone(), other_case(&long), replaced(&long, 900, b'B')];
        for start in [b"#".as_slice(), b"# ", SECRET_KEY, b" ", b"x", b"\r"] {
            let mut line = start.to_vec();
            line.resize(len, b'q');
            lines.push(line);
        }
        for line in lines {
            script.identity_file(&line, 1_200);
            script.identity_file_near(&joined(&[line, valid.clone()]));
        }
        script.identity_file(&joined(&[long, Vec::new()]), 1_200);
    }
    script.heading("Identity files: reading goes on behind a line of any length");
    for len in [2_048, 4_096, 8_192, 8_193] {
        for byte in [b'#', b'A', b'\r'] {
            let text = joined(&[valid.clone(), vec![byte; len], valid.clone()]);
            script.identity_file(&text, output_length(&text));
        }
    }
}

/// 63, 64 and 65 valid lines; where the last of them stands does not matter, nor does the output buffer.
fn valid_lines(script: &mut Script) {
    script.heading("Identity files: 63 and 64 valid lines pass");
    for count in [63, 64] {
        let lines: Vec<_> = (0..count).map(|number| identity(PLUGINS[number % PLUGINS.len()])).collect();
        script.identity_file_near(&joined(&lines));
        script.identity_file(&joined(&lines), 0);
        let one = vec![identity(b"a"); count];
        script.identity_file_near(&[joined(&one), b"\n".to_vec()].concat());
    }
    script.heading("Identity files: the 65th gives 8, wherever it stands, and before 15");
    let lines = vec![identity(b"a"); 64];
    for other in [b"".to_vec(), b"x".to_vec(), SECRET_KEY.to_vec(), vec![b'#'; LINE_LIMIT + 1]] {
        let mut some = lines.clone();
        some.insert(30, other.clone());
        script.identity_file_near(&joined(&some));
        for at in [0, 1, 30, 31, 64, 65] {
            let mut some = some.clone();
            some.insert(at, identity(b"b"));
            script.identity_file(&joined(&some), [LONGEST_OUTPUT, 0][at % 2]);
        }
    }
    for more in [2, 10, 64] {
        let some = vec![identity(b"a"); 64 + more];
        script.identity_file(&joined(&some), LONGEST_OUTPUT);
        script.identity_file(&[joined(&some), b"\n".to_vec()].concat(), 0);
    }
}

/// So many faulty lines that they are all listed, or not.
fn faulty_lines(script: &mut Script) {
    script.heading("Identity files: the first 64 faulty lines are listed, all are counted");
    let valid = text_of(Kind::Identity, b"a", b"k");
    let wrong_sum = exchanged(&valid, valid.len() - 2, valid.len() - 1);
    let leftover = signed(Kind::Identity, b"a", &[31; 1]);
    for count in [1, 2, 62, 63, 64, 65, 66, 128, 129, 1_000] {
        let faults = [b"x".to_vec(), wrong_sum.clone(), leftover.clone()];
        for round in 0..3 {
            let fault = |number: usize| match round {
                0 => faults[0].clone(),
                1 if count < 200 => faults[number % 3].clone(),
                _ => b"\r".to_vec(),
            };
            let mut lines: Vec<_> = (0..count).map(fault).collect();
            if round > 0 {
                lines.insert(count / 2, valid.clone());
                lines.insert(0, b"#".to_vec());
                lines.push(SECRET_KEY.to_vec());
            }
            script.identity_file_near(&joined(&lines));
        }
    }
    script.heading("Identity files: 64 faulty lines, 65 of them, and 65 valid ones");
    for faulty in [64, 65] {
        let lines = [vec![b"x".to_vec(); faulty], vec![valid.clone(); 65]].concat();
        script.identity_file(&joined(&lines), LONGEST_OUTPUT);
        script.identity_file_near(&joined(&lines[..faulty + 64]));
    }
    script.heading("Identity files: faulty lines far down");
    for skipped in [9, 99, 999, 9_999] {
        script.identity_file_near(&[vec![b'\n'; skipped], b"x\n\nx".to_vec()].concat());
    }
}

/// Files as long as a line of the script can have.
fn long_files(script: &mut Script) {
    script.heading(
        "Identity files: 64 identities that fill an output buffer of 65,536 bytes, and one byte more",
    );
    // 64 commands have 18 bytes each beside the identities, and done has 9.
    let exact = LONGEST_OUTPUT - 64 * 18 - 9;
    for bytes in [exact, exact + 1] {
        let text = identities(script, 64, bytes);
        script.identity_file(&text, LONGEST_OUTPUT);
    }
    script.heading("Identity files: 64 identities and 65, as long as a line of the script can be");
    for count in [64, 65] {
        let around = "identity-file ".len() + 2 * (count - 1) + " 65536".len();
        let text = identities(script, count, script::LINE_LIMIT - around);
        script.identity_file(&text, LONGEST_OUTPUT);
    }
}

/// So many identities of so many bytes together: most of them have 1,024, the last ones are of one length.
fn identities(script: &mut Script, count: usize, bytes: usize) -> Vec<u8> {
    let shortest = 100;
    let mut left = bytes;
    let mut lines = Vec::new();
    for behind in (0..count).rev() {
        let len = LINE_LIMIT.min(left - shortest * behind);
        lines.push(sized(script, Kind::Identity, len).2);
        left -= len;
    }
    joined(&lines)
}

/// What is written is received by a plugin session, in one chunk and in pieces: it has exactly the identities.
fn received(script: &mut Script) {
    for machine in MACHINES {
        for plugin in [PLUGIN, b"yubikey"] {
            script.heading(&format!("Identity files: what is written is received, {machine}"));
            for _ in 0..6 {
                let text = some_file(script);
                script.identity_file_near(&text);
                receive(script, machine, plugin, &written(&text));
            }
        }
        script.heading(&format!("Identity files: 64 identities are received, {machine}"));
        let lines: Vec<_> = (0..64).map(|number| identity(PLUGINS[number % PLUGINS.len()])).collect();
        script.identity_file_near(&joined(&lines));
        receive(script, machine, PLUGIN, &written(&joined(&lines)));
    }
}

/// A buffer exactly long enough for the identities, and one byte too short for the last.
fn receive(script: &mut Script, machine: &str, plugin: &[u8], text: &[u8]) {
    let adds = text.windows(3).filter(|window| *window == b"-> ").count() - 1;
    // Each command has 18 bytes beside its identity, and done has 9.
    let bytes = text.len() - 18 * adds - 9;
    let lens = |len: usize| std::array::from_fn::<usize, KINDS, _>(|kind| if kind == 1 { len } else { 0 });
    script.open(End::Plugin, machine, plugin, lens(bytes));
    script.chunk(text, 0);
    script.show();
    script.open(End::Plugin, machine, plugin, lens(bytes));
    let cut = script.random.below(text.len());
    script.chunk(&text[..cut], 0);
    script.chunk(&text[cut..], 0);
    script.show();
    if bytes > 0 {
        script.open(End::Plugin, machine, plugin, lens(bytes - 1));
        script.chunk(text, 0);
        script.show();
    }
}

fn random_files(script: &mut Script) {
    script.heading("Identity files: random ones");
    for _ in 0..1_500 {
        let text = some_file(script);
        let len = output_length(&text);
        let out = [len, len, len, len - 1, len + 1, 9, 0, LONGEST_OUTPUT][script.random.below(8)];
        script.identity_file(&text, out);
    }
    script.heading("Identity files: random ones, a byte changed, dropped or doubled");
    for _ in 0..700 {
        let text = [some_file(script), b"\n".to_vec()].concat();
        let at = script.random.below(text.len());
        let damaged = match script.random.below(4) {
            0 => [&text[..at], &text[at + 1..]].concat(),
            1 => [&text[..=at], &text[at..]].concat(),
            _ => replaced(&text, at, script.random.one_of(b"\n\n\r\n #1Qq\x00\xff")),
        };
        script.identity_file(&damaged, output_length(&damaged));
    }
}

/// Up to seven lines; the last has its LF or not.
fn some_file(script: &mut Script) -> Vec<u8> {
    let mut lines: Vec<Vec<u8>> = Vec::new();
    for _ in 0..script.random.below(8) {
        let line = match lines.last() {
            Some(line) if script.random.below(8) == 0 => line.clone(),
            _ => some_line(script),
        };
        lines.push(line);
    }
    if script.random.below(2) == 0 {
        lines.push(Vec::new());
    }
    joined(&lines)
}

/// A line of any sort.
fn some_line(script: &mut Script) -> Vec<u8> {
    let len = script.random.below(6);
    match script.random.below(10) {
        0 => [b"#".to_vec(), script.random.argument(len)].concat(),
        1 => Vec::new(),
        2 => [SECRET_KEY.to_vec(), script.random.argument(len)].concat(),
        3 => some_bytes(script, len),
        4..=6 => some_identity(script),
        7 => {
            let line = some_identity(script);
            with_more(script, &line)
        }
        _ => faulty_identity(script),
    }
}

/// Bytes without an LF.
fn some_bytes(script: &mut Script, len: usize) -> Vec<u8> {
    script.random.bytes(len).into_iter().filter(|&byte| byte != b'\n').collect()
}

fn some_identity(script: &mut Script) -> Vec<u8> {
    let plugin = PLUGINS[script.random.below(PLUGINS.len())];
    let len = script.random.below(5);
    let payload = script.random.bytes(len);
    text_of(Kind::Identity, plugin, &payload)
}

/// A line with a byte before or behind it that is often trimmed.
fn with_more(script: &mut Script, line: &[u8]) -> Vec<u8> {
    let more = [script.random.one_of(b"\r\r \t#\x00")];
    if script.random.below(2) == 0 {
        [line, more.as_slice()].concat()
    } else {
        [more.as_slice(), line].concat()
    }
}

/// An identity with one fault: its case, a character, the checksum, the leftover bits or its human part.
fn faulty_identity(script: &mut Script) -> Vec<u8> {
    let good = some_identity(script);
    let at = script.random.below(good.len());
    match script.random.below(7) {
        0 => other_case(&good),
        1 => replaced(&good, at, script.random.one_of(b"bBiIoO1-qQ /")),
        2 => replaced(&good, at, script.random.one_of(ALPHABET).to_ascii_uppercase()),
        3 => exchanged(&good, at, good.len() - 1),
        4 => {
            let symbols = [script.random.below(32) as u8; 3];
            signed(Kind::Identity, b"a", &symbols[..1 + script.random.below(3)])
        }
        5 => text_of(Kind::Recipient, b"a", b""),
        _ => good[..at].to_vec(),
    }
}

fn bad_lines(script: &mut Script) {
    script.heading("Identity files: bad lines of the script, and odd ones that are good");
    for line in [
        "identity-file", "identity-file a", "identity-file a 1 2", "identity-file a 65537",
        "identity-file a x", "identity-file a \\e", "identity-file a -1", "identity-file  9",
        "identity-file a\\q 9", "identity-file a 9 ", "Identity-file a 9", "identity-files a 9",
        "identity_file a 9", "identity\\x2dfile \\e 0009", "identity-file x\\e\\nx \\x39",
    ] {
        script.raw(line.as_bytes());
    }
}

#[cfg(test)]
mod tests {
    use super::*;
    use crate::identity_file::Reading;

    fn reading(text: &[u8]) -> Reading {
        read(text, &mut vec![0; 2 * LONGEST_OUTPUT]).unwrap()
    }

    #[test]
    fn long_files_have_their_length() {
        let mut script = Script::new();
        for (count, bytes) in [(64, 64_375), (64, 65_390), (65, 65_388), (3, 400)] {
            let text = identities(&mut script, count, bytes);
            assert_eq!(text.len(), bytes + count - 1);
            assert_eq!(text.split(|&byte| byte == b'\n').count(), count);
            if count <= 64 {
                assert_eq!(reading(&text), Reading { written: bytes + 18 * count + 9, ..Reading::default() });
            }
        }
    }

    #[test]
    fn random_files_have_lines_of_every_sort() {
        let mut script = Script::new();
        let (mut keys, mut faulty, mut written) = (0, 0, 0);
        for _ in 0..200 {
            let reading = reading(&some_file(&mut script));
            keys += reading.secret_keys;
            faulty += reading.faulty;
            written += reading.written;
        }
        assert!(keys > 20 && faulty > 100 && written > 200 * 40);
    }
}
