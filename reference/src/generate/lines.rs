//! Lines that are bad, odd but good, skipped, or as long as a line may be.

use super::commands::{Command, End, ENDS, RECIPIENT, ROOMY};
use super::Script;
use crate::script::LINE_LIMIT;

pub(super) fn sections(script: &mut Script) {
    wrong_calls(script);
    wrong_words(script);
    wrong_numbers(script);
    session_lines(script);
    answers_and_commands(script);
    every_raw_byte(script);
    odd_but_good(script);
    skipped(script);
    line_lengths(script);
}

fn all(script: &mut Script, lines: &[&str]) {
    for line in lines {
        script.raw(line.as_bytes());
    }
}

fn wrong_calls(script: &mut Script) {
    script.heading("No call of the table");
    all(
        script,
        &[
            "nothing", "nothing 1", "Stanza a", "INDEX 1", "indexes 1", "inde 1", "writ a b 1", "0", "\\e",
            "\\e 1", "->", "index1", "Checksum a", "checksums a", "recipients a 1", "Identity a 1",
            "write- a b 1", "write_recipient a b 1", "write-Identity a b 1", "write-recipient-v1 a b 1",
        ],
    );
    script.heading("Another count of words");
    all(
        script,
        &[
            "stanza", "stanza a b", "stanza \\e \\e", "index", "index 1 2", "index 1 2 3", "write",
            "write a", "write a b", "write a b 1 2", "checksum", "checksum a b", "recipient", "recipient a",
            "recipient a 1 2", "identity", "identity a", "identity a 1 2", "write-recipient",
            "write-recipient a b", "write-recipient a b 1 2", "write-identity", "write-identity a b",
            "write-identity a b 1 2",
        ],
    );
}

fn wrong_words(script: &mut Script) {
    script.heading("Empty words");
    all(
        script,
        &[
            " ", "  ", " index 1", "index  1", "index 1 ", "index ", "stanza ", "write a  9", "write  b 9",
            "write a b ", "checksum ", "checksum a ", "recipient  1", "identity a ", "write-recipient a  9",
            "write-identity  b 9",
        ],
    );
    script.heading("Bad escapes");
    all(
        script,
        &[
            "index \\", "index 1\\", "index \\x", "index \\x3", "index \\x3g", "index \\xg1", "index \\x 1",
            "index \\x-1", "index \\x+1", "index \\X31", "index \\t", "index \\S", "index \\0", "\\index 1",
            "stanza ->\\sdone\\n\\n\\", "write a\\q b 9", "write a b\\ 9", "write a b 9\\", "checksum a\\",
            "recipient a\\ 9", "identity a 9\\", "write-recipient a\\q b 9", "write-identity a b\\x 9",
        ],
    );
}

fn wrong_numbers(script: &mut Script) {
    script.heading("Bad numbers");
    all(
        script,
        &[
            "write a b \\e",
            "write a b x",
            "write a b -1",
            "write a b +9",
            "write a b 9x",
            "write a b x9",
            "write a b 1.5",
            "write a b 0x10",
            "write a b 9\\s",
            "write a b \\s9",
            "write a b 9\\n",
            "write a b 65537",
            "write a b 065537",
            "write a b 99999",
            "write a b 100000",
            "write a b 4294967296",
            "write a b 4294967304",
            "write a b 18446744073709551615",
            "write a b 18446744073709551616",
            "write a b 18446744073709551624",
            "write a b 99999999999999999999999999999999999999999",
            "recipient a \\e",
            "recipient a x",
            "recipient a 65537",
            "identity a -1",
            "identity a 18446744073709551616",
            "write-recipient a b +9",
            "write-recipient a b 65537",
            "write-identity a b 9x",
            "write-identity a b 4294967296",
        ],
    );
    script.heading("A bad number comes before what the call would refuse");
    all(
        script,
        &[
            "write \\e b 65537", "write a\\s\\sb b x", "recipient \\e 65537", "identity a x",
            "write-recipient A b 65537", "write-identity \\e b x",
        ],
    );
}

/// Bad lines of sessions, of the stanza check and of the judging program, while a session is open.
fn session_lines(script: &mut Script) {
    for end in ENDS {
        script.heading(&format!("Bad lines leave the session as it was, {end:?}"));
        script.open(end, RECIPIENT, b"interop", ROOMY);
        script.pass(end, &Command::add_recipient(b"kept"));
        all(script, BAD_SESSION_LINES);
        script.pass(end, &Command::add_recipient(b"too"));
        script.show();
    }
    script.heading("Escapes and leading zeros in lines of sessions");
    all(
        script,
        &[
            "\\x6fpen plu\\egin recipient\\x2dv1 \\x61 0009 9 9 9 0 0 00000000",
            "ch\\eunk \\x2d>\\x20add-recipient\\x20abc\\x0a\\n \\x30",
            "chunk ->\\sadd-identity\\sdef\\n\\n 00065536",
            "finis\\x68",
            "entry \\erecipient 00000000000000000000000000000",
            "buffers 9 9 9 9 \\x30 0 0065536",
            "\\x73how",
            "open client identity-v1 a \\x64efault 9 9 9 9 9 9 9",
            "send add\\x2didentity a\\eb \\e\\e 0020",
            "\\x61waited",
            "show",
        ],
    );
}

const BAD_SESSION_LINES: &[&str] = &[
    "open",
    "open client",
    "open plugin",
    "open plugin recipient-v1 a",
    "open plugin recipient-v1 a 0 0 0 0 0 0",
    "open plugin recipient-v1 a 0 0 0 0 0 0 0 0",
    "open plugin recipient-v1 a 0 0 0 0 0 0 65537",
    "open plugin recipient-v1 a 0 0 0 x 0 0 0",
    "open plugin recipient-v1 a \\e 0 0 0 0 0 0",
    "open plugin recipient-v1 a screen 0 0 0 0 0 0 0",
    "open plugin recipient-v2 A 0 0 0 0 0 0 -1",
    "open client recipient-v1 a 0 0 0 0 0 0 0",
    "open client recipient-v1 a screen 0 0 0 0 0 0",
    "open client recipient-v1 a screen 0 0 0 0 0 0 0 0",
    "open client recipient-v1 a Screen 0 0 0 0 0 0 0",
    "open client recipient-v1 a no_screen 0 0 0 0 0 0 0",
    "open client recipient-v1 a \\e 0 0 0 0 0 0 0",
    "open client recipient-v1 a yes 0 0 0 0 0 0 0",
    "open client recipient-v2 A none 0 0 0 0 0 0 0",
    "open client recipient-v1 a screen 65537 0 0 0 0 0 0",
    "open Client recipient-v1 a screen 0 0 0 0 0 0 0",
    "open host recipient-v1 a 0 0 0 0 0 0 0",
    "Open plugin recipient-v1 a 0 0 0 0 0 0 0",
    "buffers",
    "buffers 0 0 0 0 0 0",
    "buffers 0 0 0 0 0 0 0 0",
    "buffers 0 0 0 0 0 0 65537",
    "buffers 0 0 0 0 0 0 x",
    "buffers 0 0 0 0 0 0 ",
    "send",
    "send done \\e \\e",
    "send done \\e \\e 9 9",
    "send done \\e \\e 65537",
    "send done \\e \\e x",
    "send done  \\e 9",
    "send done \\ \\e 9",
    "sends done \\e \\e 9",
    "chunk",
    "chunk ->\\sdone\\n\\n",
    "chunk ->\\sdone\\n\\n 9 9",
    "chunk ->\\sdone\\n\\n 65537",
    "chunk ->\\sdone\\n\\n \\e",
    "chunk ->\\sdone\\n\\n -1",
    "chunk -> done 9",
    "chunk ->\\sdone\\q 9",
    "chunk  9",
    "Chunk ->\\sdone\\n\\n 9",
    "chunks ->\\sdone\\n\\n 9",
    "receive ->\\sdone\\n\\n 9",
    "receive ->\\sdone\\n\\n",
    "response ->\\sok\\n\\n 9",
    "response",
    "awaited 0",
    "awaited \\e",
    "awaited ",
    "Awaited",
    "awaits",
    "finish 0",
    "finish \\e",
    "finish ",
    "Finish",
    "finished",
    "entry",
    "entry recipient",
    "entry recipient 0 0",
    "entry recipient x",
    "entry recipient \\e",
    "entry recipient -1",
    "entry identity 18446744073709551616",
    "entry identity 99999999999999999999999",
    "entry file-key 0",
    "entry header 0",
    "entry Identity 0",
    "entry \\e 0",
    "show 1",
    "show \\e",
    "show ",
    "Show",
    "shows",
    "profile",
    "profile fido2-hmac",
    "profile fido2-hmac a",
    "profile fido2-hmac a b c",
    "profile fido2-hmac  b",
    "Profile fido2-hmac a b",
    "judge",
    "judge a b",
    "judge ",
    "judge \\x",
    "Judge a",
];

/// Calls of phase two, at both ends and in both phases.
fn answers_and_commands(script: &mut Script) {
    let lines = [
        "chunk \\e 0", "reply ok \\e 9", "reply yes \\e 9", "reply maybe \\e 9", "awaited", "finish",
        "response ->\\sok\\n\\n 9", "receive ->\\sdone\\n\\n 9",
    ];
    script.heading("Replies, a client that receives, a plugin that sends, and lines that are no longer");
    for end in ENDS {
        script.open_with_screen(end, RECIPIENT, b"interop", ROOMY);
        for last in [Command::add_recipient(b"kept"), Command::done()] {
            script.pass(end, &last);
            all(script, &lines);
            let other = if end == End::Client { End::Plugin } else { End::Client };
            script.pass(other, &Command::new(b"msg", b"", b"hello"));
            script.pass(other, &Command::done());
        }
        script.show();
    }
}

/// Each raw byte but LF, which would end the line.
fn every_raw_byte(script: &mut Script) {
    let places: [(&str, &[u8], &[u8]); 5] = [
        ("behind a digit", b"index 1", b""),
        ("before a call", b"", b"index 1"),
        ("behind a backslash", b"index \\", b""),
        ("as the first hex digit", b"index \\x", b"1"),
        ("as the second hex digit", b"index \\x3", b""),
    ];
    for (place, before, behind) in places {
        script.heading(&format!("Every raw byte but LF: {place}"));
        for byte in (0..=255).filter(|&byte| byte != b'\n') {
            script.raw(&[before, &[byte], behind].concat());
        }
    }
}

fn odd_but_good(script: &mut Script) {
    script.heading("Escapes where none is needed");
    all(
        script,
        &[
            "index \\x31\\x32", "index 1\\e2", "index \\e\\e1\\e", "index \\e\\e", "ind\\x65x 7",
            "\\eindex 7", "\\x73tanza ->\\x20done\\x0a\\x0A", "stanza \\x2D\\x3e\\x20\\x61\\x0A\\x0a",
            "write d\\x6Fne \\e 9", "write done \\e\\e \\x39", "write \\\\ \\\\\\\\ 20",
            "write a \\xAb\\xaB\\xAB\\xab 20", "ch\\x65cksum A12UEL5\\x4c",
            "recipient\\e age1\\e\\x611lelu8n \\x30", "write\\x2didentity \\x61 \\e 20",
        ],
    );
    script.heading("Leading zeros of OUT");
    all(
        script,
        &[
            "write done \\e 09",
            "write done \\e 00000000000000000000000000009",
            "write done \\e 00",
            "write done \\e 0000000065536",
            "write done \\e 65535",
            "write done \\e 65536",
            "recipient age1a1lelu8n 000",
            "write-recipient a \\e 0012",
        ],
    );
}

fn skipped(script: &mut Script) {
    script.heading("Skipped lines are counted");
    all(
        script,
        &["", "#", "##", "# \\", "#index 1", "# index 1", "", "bad", " # no comment", "\\x23", "index 1"],
    );
    script.raw(b"#\x00\x01\r\t\x7f\xff");
    script.raw(b"counted");
}

fn line_lengths(script: &mut Script) {
    script.heading("A line of 65,536 bytes, and one of 65,537");
    for len in [LINE_LIMIT, LINE_LIMIT + 1] {
        let mut line = b"stanza ->\\sdone\\n\\n".to_vec();
        line.resize(len, b'x');
        script.raw(&line);
    }
    script.heading("A number of as many digits as a line can have");
    let mut line = b"write done \\e ".to_vec();
    line.resize(LINE_LIMIT - 1, b'0');
    line.push(b'9');
    script.raw(&line);
    script.heading("A comment longer than a line may be");
    script.raw(&[b'#'; LINE_LIMIT + 64]);
    script.raw(b"counted");
}
