//! The scripts for the class, in `scripts/` of the repository: each answers what stands beside it.

use std::collections::BTreeSet;
use std::fs;
use std::path::{Path, PathBuf};

use reference::{generate, replay};

fn folder() -> PathBuf {
    Path::new(env!("CARGO_MANIFEST_DIR")).join("../scripts")
}

/// The names of the files with this ending.
fn names(ending: &str) -> BTreeSet<String> {
    let files = fs::read_dir(folder()).unwrap().map(|file| file.unwrap().file_name().into_string().unwrap());
    files.filter_map(|file| file.strip_suffix(ending).map(str::to_string)).collect()
}

fn text(name: &str, ending: &str) -> String {
    fs::read_to_string(folder().join(format!("{name}{ending}"))).unwrap()
}

fn answers(script: &str) -> String {
    let mut output = Vec::new();
    replay::run(script.as_bytes(), &mut output).unwrap();
    String::from_utf8(output).unwrap()
}

#[test]
fn every_script_prints_what_is_beside_it() {
    assert_eq!(names(".txt"), names(".out"));
    assert_eq!(names(".txt").len(), 10);
    for name in names(".txt") {
        assert_eq!(answers(&text(&name, ".txt")), text(&name, ".out"), "{name}");
    }
}

/// So the library's answers are compared too.
#[test]
fn every_script_is_part_of_the_stored_one() {
    let stored = generate::script();
    let stored = String::from_utf8_lossy(&stored);
    for name in names(".txt") {
        assert!(stored.contains(&text(&name, ".txt")), "{name}");
    }
}

#[test]
fn no_script_has_a_bad_line() {
    for name in names(".txt") {
        assert!(!text(&name, ".out").lines().any(|line| line.starts_with("bad") || line == "none"), "{name}");
        assert!(text(&name, ".txt").starts_with("# "), "{name}");
    }
}

/// What an end received and what it wrote, each joined, with their escapes.
fn traffic(script: &str) -> (String, String) {
    let (mut received, mut written) = (String::new(), String::new());
    let mut replay = replay::Replay::default();
    for line in script.lines() {
        let Some(answer) = replay.answer(line.as_bytes()) else { continue };
        let answer = String::from_utf8(answer).unwrap();
        let words: Vec<&str> = answer.trim_end().split(' ').collect();
        if words[0] != "ok" {
            continue;
        }
        if let Some(chunk) = line.strip_prefix("chunk ") {
            received += chunk.split(' ').next().unwrap();
        }
        // What a plugin writes when it receives is the body of a response, and no text of a stanza.
        let text = words[words.len() - 1];
        if text.starts_with("->") && line != "awaited" {
            written += text;
        }
    }
    (received.replace("\\e", ""), written)
}

#[test]
fn whole_conversations_fit_together() {
    for name in ["conversation-recipient-v1", "conversation-identity-v1", "conversation-in-chunks"] {
        let script = text(name, ".txt");
        let (client, rest) = script.split_at(script.find("open plugin").unwrap());
        let plugin = &rest[..rest.find("open client").unwrap_or(rest.len())];
        let (client, plugin) = (traffic(client), traffic(plugin));
        assert_eq!(client.0, plugin.1, "{name}");
        assert_eq!(plugin.0, client.1, "{name}");
        assert!(text(name, ".out").matches("phase ended").count() >= 2, "{name}");
    }
}

/// The README has a line for each.
#[test]
fn every_script_is_listed() {
    let readme = fs::read_to_string(folder().join("README.md")).unwrap();
    for name in names(".txt") {
        assert!(readme.contains(&format!("| `{name}` |")), "{name}");
    }
}
