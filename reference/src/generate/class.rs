//! The scripts for the class, as they stand in `scripts/` of the repository: so the library's answers to them are compared too.

use super::Script;

const SCRIPTS: [&str; 10] = [
    include_str!("../../../scripts/ok-no.txt"),
    include_str!("../../../scripts/empty-body.txt"),
    include_str!("../../../scripts/unknown-tag.txt"),
    include_str!("../../../scripts/one-counter.txt"),
    include_str!("../../../scripts/file-key-unknown.txt"),
    include_str!("../../../scripts/what-is-wrong.txt"),
    include_str!("../../../scripts/recipient-twice.txt"),
    include_str!("../../../scripts/conversation-recipient-v1.txt"),
    include_str!("../../../scripts/conversation-identity-v1.txt"),
    include_str!("../../../scripts/conversation-in-chunks.txt"),
];

pub(super) fn sections(script: &mut Script) {
    script.heading("The scripts for the class");
    for text in SCRIPTS {
        script.text.extend(text.as_bytes());
    }
}
