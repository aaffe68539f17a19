//! Lines for the numbers of header stanzas within their file (document 02, No. 2): what error stanza f i names,
//! which stanza it is that is unknown, and which errors are owed before done, in conversations of several files.

use super::bech32::text_of;
use super::chunks::live::Live;
use super::commands::{text_of_all, Command, End, ENDS, IDENTITY};
use super::phase_two::exchanges::{
    conforming, nonconforming, unknown, Exchange, Screen, Start, AMPLE, FIDO2_HMAC, LONGEST_ANSWER,
};
use super::text::stanza_text;
use super::Script;
use crate::bech32::Kind;
use crate::profile::Finding::{self, Conforming, Nonconforming, Unknown};

/// The header stanzas of a session: the file of each, and what the stanza check finds.
type Layout = [(u32, Finding)];

/// Files with repeats and skips, each sort of stanza before and behind the others.
const LAYOUTS: [&Layout; 7] = [
    &[(0, Unknown), (0, Nonconforming), (0, Conforming), (1, Nonconforming), (1, Unknown), (1, Conforming)],
    &[
        (3, Conforming),
        (3, Conforming),
        (3, Nonconforming),
        (7, Unknown),
        (7, Nonconforming),
        (u32::MAX, Conforming),
    ],
    &[(0, Nonconforming), (0, Nonconforming), (1, Nonconforming), (1, Nonconforming), (5, Nonconforming)],
    // By the count of document 01 stanza 1 of file 1 would be the one that is owed.
    &[(0, Unknown), (1, Nonconforming), (1, Conforming), (1, Unknown)],
    // By that count stanza 2 of file 2 would be the unknown one.
    &[(1, Unknown), (1, Conforming), (2, Unknown), (2, Conforming), (2, Nonconforming)],
    &[(2, Conforming), (2, Conforming), (3, Conforming), (3, Conforming), (3, Conforming)],
    &[(0, Conforming), (1, Conforming), (2, Nonconforming), (3, Unknown)],
];

pub(super) fn sections(script: &mut Script) {
    for layout in LAYOUTS {
        script.heading(&format!("Numbers within a file: {layout:?}"));
        each_cause(script, layout);
        owed(script, layout);
        keys_beside_errors(script, layout);
    }
    script.heading("Numbers within a file: 256 header stanzas");
    full_table(script);
    for end in ENDS {
        script.heading(&format!("Numbers within a file: random conversations, {end:?}"));
        for _ in 0..45 {
            let layout = some_layout(script);
            match end {
                End::Client => at_client(script, &layout),
                End::Plugin => at_plugin(script, &layout),
            }
        }
    }
}

fn header(&(file, finding): &(u32, Finding)) -> Command {
    match finding {
        Conforming => conforming(file),
        Nonconforming => nonconforming(file),
        Unknown => unknown(file),
    }
}

/// A phase one with these header stanzas, and an identity and an unknown command between them.
fn start(layout: &Layout) -> Start {
    let mut phase: Vec<Command> = layout.iter().map(header).collect();
    let identity = Command::add_identity(&text_of(Kind::Identity, FIDO2_HMAC, b""));
    phase.insert(1, identity);
    phase.insert(3.min(phase.len()), Command::new(b"grease", b"", b""));
    Start::new(IDENTITY, FIDO2_HMAC, &phase)
}

/// The number of a header stanza within its file.
fn number_in_file(layout: &Layout, place: usize) -> u32 {
    layout[..place].iter().filter(|header| header.0 == layout[place].0).count() as u32
}

/// What an error names.
type Cause = (u32, u32);

fn error((file, number): Cause, message: &[u8]) -> Exchange {
    Exchange::error(&format!("stanza {file} {number}"), message)
}

/// The header stanzas as errors name them.
fn good_causes(layout: &Layout) -> Vec<Cause> {
    (0..layout.len()).map(|place| (layout[place].0, number_in_file(layout, place))).collect()
}

/// What names nothing: one and two past each file, other files, and the count of document 01 where it differs.
fn bad_causes(layout: &Layout) -> Vec<Cause> {
    let good = good_causes(layout);
    let mut causes = Vec::new();
    for (place, &(file, number)) in good.iter().enumerate() {
        let place = place as u32;
        causes.extend([(file, number + 1), (file, number + 2), (file, place), (file, place + 1)]);
        causes.extend([(file.wrapping_add(1), number), (file.wrapping_add(1), place), (number, file)]);
    }
    causes.push((layout[0].0, u32::MAX));
    causes.retain(|cause| !good.contains(cause));
    causes.sort_unstable();
    causes.dedup();
    causes
}

/// Every stanza has its error; nothing else has one.
fn each_cause(script: &mut Script, layout: &Layout) {
    let start = start(layout);
    for end in ENDS {
        script.enter(end, &start, AMPLE);
        for (place, cause) in good_causes(layout).into_iter().enumerate() {
            script.exchange(end, &error(cause, &[b'0' + place as u8]));
        }
        script.show();
    }
    script.enter(End::Plugin, &start, AMPLE);
    for cause in bad_causes(layout) {
        script.send(&error(cause, b"").command, 99);
    }
    script.show();
    for cause in bad_causes(layout) {
        script.enter(End::Client, &start, AMPLE);
        script.chunk(&error(cause, b"").command.text(), LONGEST_ANSWER);
    }
    script.show();
}

/// The plugin end sends no done before each error that is owed, whatever others it has sent.
fn owed(script: &mut Script, layout: &Layout) {
    let good = good_causes(layout);
    let owed: Vec<Cause> = (0..layout.len())
        .filter(|&place| layout[place].1 == Nonconforming)
        .map(|place| good[place])
        .collect();
    let reversed: Vec<Cause> = owed.iter().rev().copied().collect();
    for causes in [owed, reversed] {
        script.enter(End::Plugin, &start(layout), AMPLE);
        script.send(&Command::done(), 0);
        // Those that document 01's count would ask for.
        for (place, &(file, finding)) in layout.iter().enumerate() {
            if finding == Nonconforming {
                script.exchange(End::Plugin, &error((file, place as u32), b"old"));
            }
        }
        for cause in causes {
            script.send(&Command::done(), 0);
            script.exchange(End::Plugin, &error(cause, b"owed"));
        }
        script.send(&Command::done(), 8);
        script.exchange(End::Plugin, &Exchange::done());
        script.show();
    }
}

/// 11 for the file's key, and for no other file's; at the client end, which has no duties.
fn keys_beside_errors(script: &mut Script, layout: &Layout) {
    let mut files: Vec<u32> = layout.iter().map(|header| header.0).collect();
    files.dedup();
    for (place, cause) in good_causes(layout).into_iter().enumerate() {
        let Some(&file) = files.get(place % files.len()) else { continue };
        for exchanges in
            [[error(cause, b""), Exchange::file_key(file)], [Exchange::file_key(file), error(cause, b"")]]
        {
            let mut live = Live::enter(script, Screen::Yes, &start(layout), AMPLE);
            for exchange in &exchanges {
                live.chunk(script, &exchange.command.text(), LONGEST_ANSWER);
            }
            script.exchange_all(End::Client, &[Exchange::done()]);
            script.show();
        }
    }
}

/// File 1 has the last 128 of 256 header stanzas, so its last has number 127, and neither 128 nor 255 is one.
fn full_table(script: &mut Script) {
    let headers: Vec<Command> = (0..256).map(|place| unknown(place / 128)).collect();
    let start = Start::new(IDENTITY, FIDO2_HMAC, &headers);
    script.enter(End::Client, &start, AMPLE);
    script.chunk(&error((1, 127), b"").command.text(), LONGEST_ANSWER);
    script.chunk(&error((1, 128), b"").command.text(), LONGEST_ANSWER);
    script.open(End::Plugin, IDENTITY, FIDO2_HMAC, AMPLE);
    script.chunk(&[text_of_all(&headers), Command::done().text()].concat(), 0);
    // At the plugin end an unknown one gives 19, and none gives 6.
    for number in [0, 127, 128, 255, 256] {
        script.send(&error((1, number), b"").command, 99);
    }
    script.send(&Command::done(), 9);
}

/// Three to nine header stanzas of a few files.
fn some_layout(script: &mut Script) -> Vec<(u32, Finding)> {
    let mut file = script.random.below(3) as u32;
    let mut layout = Vec::new();
    for _ in 0..3 + script.random.below(7) {
        file += [0, 0, 0, 1, 1, 4][script.random.below(6)];
        let finding = [Conforming, Conforming, Nonconforming, Unknown][script.random.below(4)];
        layout.push((file, finding));
    }
    layout
}

/// A header stanza as an error names it, now and then one off in either direction, or by document 01's count.
fn some_cause(script: &mut Script, layout: &Layout) -> Cause {
    let place = script.random.below(layout.len());
    let (file, number) = (layout[place].0, number_in_file(layout, place));
    match script.random.below(10) {
        0 => (file, number + 1),
        1 => (file, number.saturating_sub(1)),
        2 => (file, place as u32),
        3 => (file + 1, number),
        _ => (file, number),
    }
}

/// Errors in any order, some of them not owed or naming nothing, keys, and done again and again.
fn at_plugin(script: &mut Script, layout: &Layout) {
    script.enter(End::Plugin, &start(layout), AMPLE);
    for _ in 0..2 * layout.len() {
        let place = script.random.below(layout.len());
        match script.random.below(5) {
            0 => send(script, &Exchange::file_key(layout[place].0)),
            1 => script.send(&Command::done(), 0),
            _ => {
                let cause = some_cause(script, layout);
                send(script, &error(cause, b"e"));
            }
        }
    }
    script.show();
    // What is owed still.
    for (place, cause) in good_causes(layout).into_iter().enumerate() {
        if layout[place].1 == Nonconforming {
            script.send(&Command::done(), 0);
            send(script, &error(cause, b"last"));
        }
    }
    script.exchange(End::Plugin, &Exchange::done());
    script.show();
}

/// A command that may be refused; the response fits it, or comes while none is due.
fn send(script: &mut Script, exchange: &Exchange) {
    script.send(&exchange.command, 99);
    script.chunk(b"-> ok\n\n", 0);
}

/// Errors and keys until one closes the session, and then in one chunk of another session.
fn at_client(script: &mut Script, layout: &Layout) {
    let start = start(layout);
    let mut live = Live::enter(script, Screen::Untold, &start, AMPLE);
    let mut text = Vec::new();
    for _ in 0..layout.len() {
        let place = script.random.below(layout.len());
        let command = match script.random.below(5) {
            0 => Exchange::file_key(layout[place].0).command.text(),
            _ => {
                let (file, number) = some_cause(script, layout);
                stanza_text(format!("error stanza {file} {number}").as_bytes(), b"e")
            }
        };
        if !live.is_over() {
            live.chunk(script, &command, LONGEST_ANSWER);
        }
        text.extend(command);
    }
    script.show();
    text.extend(Command::done().text());
    let mut live = Live::enter(script, Screen::Untold, &start, AMPLE);
    live.chunk_exactly(script, &text);
    script.show();
}

#[cfg(test)]
mod tests {
    use super::*;
    use crate::replay::run;

    fn answers(script: &Script) -> Vec<String> {
        let mut output = Vec::new();
        run(script.text.as_slice(), &mut output).unwrap();
        String::from_utf8(output).unwrap().lines().map(str::to_string).collect()
    }

    /// Each good cause passes at the client end and is shown as it was said; each bad one gives 6.
    #[test]
    fn causes_are_good_and_bad() {
        for layout in LAYOUTS {
            let mut script = Script::new();
            script.enter(End::Client, &start(layout), AMPLE);
            for cause in good_causes(layout) {
                script.exchange(End::Client, &error(cause, b""));
            }
            script.show();
            let answers = answers(&script);
            for (place, (file, number)) in good_causes(layout).into_iter().enumerate() {
                assert!(answers.contains(&format!("error {place} stanza\\s{file}\\s{number} \\e")));
            }
        }
        for layout in LAYOUTS {
            for cause in bad_causes(layout) {
                let mut script = Script::new();
                script.enter(End::Client, &start(layout), AMPLE);
                script.exchange(End::Client, &error(cause, b""));
                assert_eq!(answers(&script).last().unwrap(), "refused 6 0 - \\e", "{layout:?} {cause:?}");
            }
        }
    }

    /// By document 01's count other errors would be owed than are.
    #[test]
    fn done_waits_for_the_errors_owed() {
        for layout in LAYOUTS {
            let mut script = Script::new();
            owed(&mut script, layout);
            let answers = answers(&script);
            assert!(answers.iter().any(|answer| answer == "phase ended"), "{layout:?}");
            let faulty = layout.iter().filter(|header| header.1 == Nonconforming).count();
            let held_back = answers.iter().filter(|answer| *answer == "refused 19").count();
            assert!(held_back >= 2 * faulty, "{layout:?}");
        }
    }
}
