//! Lines for a recipient that comes twice (document 02, No. 7): 20, as the lent buffer shows the earlier ones, at
//! both ends, in mid-chunk, and beside other faults.

use super::bech32::{other_case, text_of};
use super::commands::{
    different_recipients, text_of_all, Command, End, ENDS, IDENTITY, MACHINES, PLUGIN, RECIPIENT, ROOMY,
};
use super::text::{exchanged, stanza_text};
use super::Script;
use crate::bech32::Kind;
use crate::session::KINDS;

pub(super) fn sections(script: &mut Script) {
    for end in ENDS {
        script.heading(&format!("A recipient twice, {end:?}"));
        pairs(script, end);
        script.heading(&format!("A recipient twice among 64, {end:?}"));
        among_many(script, end);
        script.heading(&format!("A recipient twice, and buffers that change, {end:?}"));
        changing_buffers(script, end);
        script.heading(&format!("What may repeat, {end:?}"));
        may_repeat(script, end);
        script.heading(&format!("Random recipients, some of them twice, {end:?}"));
        for _ in 0..90 {
            random_phase(script, end);
        }
    }
    script.heading("A recipient twice, and other faults: sending");
    sending(script);
    script.heading("A recipient twice, and other faults: receiving");
    receiving(script);
    script.heading("A recipient twice in chunks");
    in_chunks(script);
    script.heading("Judge: a recipient twice");
    judged(script);
}

/// Texts that are the session's, another plugin's, or no Bech32; each pair of them.
fn texts() -> [Vec<u8>; 9] {
    let good = text_of(Kind::Recipient, PLUGIN, b"key");
    [
        good.clone(),
        other_case(&good),
        good[..good.len() - 1].to_vec(),
        [good.as_slice(), b"q"].concat(),
        exchanged(&good, good.len() - 2, good.len() - 1),
        text_of(Kind::Recipient, b"other", b"key"),
        text_of(Kind::Identity, PLUGIN, b"key"),
        b"a".to_vec(),
        b"A".to_vec(),
    ]
}

/// Two recipients, the same or not: letters of another case differ, and so do a text and its front.
fn pairs(script: &mut Script, end: End) {
    for (at, one) in texts().iter().enumerate() {
        script.open(end, RECIPIENT, PLUGIN, ROOMY);
        script.pass(end, &Command::add_recipient(one));
        // None of the others is the same.
        for (place, other) in texts().iter().enumerate() {
            if place != at {
                script.pass(end, &Command::add_recipient(other));
            }
        }
        script.pass(end, &Command::add_recipient(one));
        script.pass(end, &Command::add_recipient(b"more"));
        script.show();
        script.pass(end, &Command::done());
        script.show();
    }
    for text in [b"a".as_slice(), b"~", b"!", b"->", &[b'r'; 2_000]] {
        script.open(end, RECIPIENT, PLUGIN, [5_000; KINDS]);
        for _ in 0..3 {
            script.pass(end, &Command::add_recipient(text));
        }
        script.show();
    }
}

/// The repeat of one of 64 is 20, before 8; a new one is 8.
fn among_many(script: &mut Script, end: End) {
    let recipients = different_recipients(65);
    for at in [0, 1, 31, 62, 63, 64] {
        script.open(end, RECIPIENT, PLUGIN, ROOMY);
        script.pass_all(end, &recipients[..64]);
        script.pass(end, &recipients[at]);
        script.pass(end, &Command::done());
    }
    script.show();
}

/// What the buffer shows now is compared; what it is too short for equals nothing, and then there is no space.
fn changing_buffers(script: &mut Script, end: End) {
    let lens = |len: usize| std::array::from_fn::<usize, KINDS, _>(|kind| if kind == 0 { len } else { 9 });
    let kept = [b"abc".as_slice(), b"de", b"fghi"].map(Command::add_recipient);
    for len in 0..=10 {
        for command in &kept {
            script.open(end, RECIPIENT, PLUGIN, lens(9));
            script.pass_all(end, &kept);
            script.buffers(lens(len));
            script.pass(end, command);
            script.show();
            // Lent anew: what was cut off is zeros, and no text has those.
            script.buffers(lens(20));
            script.pass(end, command);
            script.pass(end, command);
            script.show();
        }
    }
    // Cut off and lent anew before anything else comes.
    for len in [2, 3, 4, 5, 8, 9] {
        for command in &kept {
            script.open(end, RECIPIENT, PLUGIN, lens(9));
            script.pass_all(end, &kept);
            script.buffers(lens(len));
            script.buffers(lens(20));
            script.pass(end, command);
            script.pass(end, command);
            script.show();
        }
    }
    // The other kinds' buffers show nothing that counts.
    script.open(end, RECIPIENT, PLUGIN, ROOMY);
    script.pass_all(end, &[Command::add_identity(b"abc"), kept[0].clone()]);
    script.buffers(lens(3));
    script.pass(end, &kept[0]);
    script.show();
}

/// Identities, file keys and unknown commands may repeat, and a text may be recipient and identity.
fn may_repeat(script: &mut Script, end: End) {
    let good = text_of(Kind::Recipient, PLUGIN, b"key");
    for machine in MACHINES {
        let phase = [
            Command::add_recipient(&good),
            Command::add_identity(&good),
            Command::add_identity(&good),
            Command::wrap_file_key(&[b'k'; 16]),
            Command::wrap_file_key(&[b'k'; 16]),
            Command::new(b"add-recipients", &good, b""),
            Command::new(b"Add-recipient", &good, b""),
            Command::recipient_stanza(b"0", &good, b""),
            Command::recipient_stanza(b"0", &good, b""),
            // In identity-v1 this one is unknown, too.
            Command::add_recipient(&good),
            Command::add_recipient(&good),
            Command::done(),
        ];
        script.conversation(end, machine, ROOMY, &phase);
    }
}

/// 13, 14, 17 and 4 before 20; 20 before 8 and 15. What is refused changes nothing.
fn sending(script: &mut Script) {
    for (lens, name) in [([9; KINDS], "roomy"), ([3; KINDS], "no space")] {
        script.heading(&format!("A recipient twice, and other faults: sending, {name}"));
        script.open(End::Client, RECIPIENT, PLUGIN, lens);
        script.send(&Command::add_recipient(b"abc"), 99);
        for (word, arguments, body) in [
            ("add-recipient", "abc", ""),
            ("add-recipient abc", "", ""),
            ("add-recipient", "abc ", ""),
            ("add-recipient", "abc abc", ""),
            ("add-recipient", "abc", "b"),
            ("add-recipient", "abd", ""),
        ] {
            for out in [0, 21, 22] {
                script.send(&Command::new(word.as_bytes(), arguments.as_bytes(), body.as_bytes()), out);
            }
        }
        script.show();
        script.send(&Command::done(), 9);
        script.send(&Command::add_recipient(b"abc"), 99);
        script.chunk(b"-> done\n\n", 0);
        script.send(&Command::add_recipient(b"abc"), 99);
        script.show();
    }
}

/// The same at the plugin end, where each closes the session.
fn receiving(script: &mut Script) {
    for lens in [[9; KINDS], [3; KINDS]] {
        for (line, body) in [
            ("add-recipient abc", b"".as_slice()),
            ("add-recipient abc abc", b""),
            ("add-recipient abc", b"b"),
            ("add-recipient abd", b""),
        ] {
            script.open(End::Plugin, RECIPIENT, PLUGIN, lens);
            script.chunk(b"-> add-recipient abc\n\n", 0);
            script.chunk(&stanza_text(line.as_bytes(), body), 0);
            script.chunk(b"-> add-recipient abc\n\n", 0);
            script.finish();
            script.show();
        }
    }
    script.open(End::Plugin, RECIPIENT, PLUGIN, ROOMY);
    script.chunk(b"-> add-recipient abc\n\n-> done\n\n", 0);
    script.chunk(b"-> add-recipient abc\n\n", 0);
    script.show();
}

/// What stood before the repeat stands, whatever follows it, and however the text is cut.
fn in_chunks(script: &mut Script) {
    let before = b"-> add-recipient abc\n\n-> add-identity abc\n\n-> add-recipient abcd\n\n-> grease\n\n";
    let repeats: [&[u8]; 3] =
        [b"-> add-recipient abc\n\n", b"-> add-recipient abcd\n\n", b"-> add-recipient ab\n\n"];
    for repeat in repeats {
        for behind in [b"".as_slice(), b"-> done\n\n", b"\r", b"-> add-recipient abc\n\n"] {
            let text = [before.as_slice(), repeat, behind].concat();
            for cut in [text.len(), 1, 16, before.len(), before.len() + 20] {
                if cut > 1 || behind == b"-> done\n\n" {
                    script.open(End::Plugin, RECIPIENT, PLUGIN, ROOMY);
                    for piece in text.chunks(cut) {
                        script.chunk(piece, 0);
                    }
                    script.show();
                }
            }
        }
    }
    // 64 in one chunk, and the repeat of one of them.
    let recipients = different_recipients(65);
    for at in [0, 63, 64] {
        script.open(End::Plugin, RECIPIENT, PLUGIN, ROOMY);
        script.chunk(&text_of_all(&[&recipients[..64], &recipients[at..=at]].concat()), 0);
        script.show();
    }
}

/// The judging program can answer 20.
fn judged(script: &mut Script) {
    let recipients = different_recipients(65);
    for at in [0, 30, 63, 64] {
        let phase = [&recipients[..64], &recipients[at..=at], &[Command::done()]].concat();
        script.judge(&text_of_all(&phase));
    }
    for texts in [["a", "a", "b"], ["a", "b", "a"], ["b", "a", "a"], ["a", "A", "aa"]] {
        let mut phase = vec![Command::add_identity(b"a"), Command::add_identity(b"a")];
        phase.extend(texts.map(|text| Command::add_recipient(text.as_bytes())));
        phase.push(Command::done());
        script.judge(&text_of_all(&phase));
        phase.insert(4, Command::add_recipient(b"a b"));
        script.judge(&text_of_all(&phase));
    }
}

/// Recipients out of a few texts, other commands between them, buffers that change now and then.
fn random_phase(script: &mut Script, end: End) {
    let machine = if script.random.below(8) == 0 { IDENTITY } else { RECIPIENT };
    let few = [b"a".as_slice(), b"ab", b"abc", b"b", b"B", b"aB", b"c", b"d", b"~"];
    let lens = some_lengths(script);
    script.open(end, machine, PLUGIN, lens);
    for _ in 0..2 + script.random.below(7) {
        let text = few[script.random.below(few.len())];
        let command = match script.random.below(6) {
            0 => Command::add_identity(text),
            1 => Command::new(b"grease", text, b""),
            _ => Command::add_recipient(text),
        };
        script.pass(end, &command);
        if script.random.below(6) == 0 {
            let lens = some_lengths(script);
            script.buffers(lens);
        }
    }
    script.show();
}

/// Lengths that are enough, or nearly so.
fn some_lengths(script: &mut Script) -> [usize; KINDS] {
    let len = [99, 99, 99, 8, 4][script.random.below(5)];
    [len, 99, 99, 99, 0, 0, 0]
}

#[cfg(test)]
mod tests {
    use super::*;
    use crate::replay::run;

    #[test]
    fn texts_differ() {
        let mut texts = texts();
        texts.sort();
        assert!(texts.windows(2).all(|pair| pair[0] != pair[1]));
    }

    /// In each session of `pairs` only the repeat is refused with 20.
    #[test]
    fn only_repeats_are_refused_with_20() {
        let mut script = Script::new();
        pairs(&mut script, End::Client);
        let mut output = Vec::new();
        run(script.text.as_slice(), &mut output).unwrap();
        let output = String::from_utf8(output).unwrap();
        let twenty = output.lines().filter(|line| *line == "refused 20").count();
        // Once for each of nine texts, twice for each of five.
        assert_eq!(twenty, 9 + 2 * 5);
        assert_eq!(output.matches("refused").count(), twenty);
    }
}
