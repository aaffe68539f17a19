//! The responses of phase two, and which fit which command (document 01, "Phase two").

use super::phase_two::Command;
use super::written;
use crate::refusal::Refusal;

/// A response, or what a client's host replies.
#[derive(Clone, Copy, Debug, PartialEq, Eq)]
pub enum Response {
    Ok,
    /// ok yes.
    Yes,
    /// ok no.
    No,
    Fail,
    Unsupported,
}

/// The paper's table: a row for each command, a column for each response, both in the order of their enums.
const FITTING: [[bool; 5]; 9] = [
    // ok, ok yes, ok no, fail, unsupported
    [true, false, false, true, false],   // msg
    [false, true, true, true, false],    // confirm
    [true, false, false, true, false],   // request-public
    [true, false, false, true, false],   // request-secret
    [true, false, false, false, false],  // recipient-stanza
    [true, false, false, false, false],  // file-key
    [true, false, false, false, false],  // error
    [false, false, false, false, true],  // any other
    [false, false, false, false, false], // done: it has no response
];

impl Response {
    pub const ALL: [Response; 5] =
        [Response::Ok, Response::Yes, Response::No, Response::Fail, Response::Unsupported];

    /// All arguments of its stanza.
    #[must_use]
    pub fn arguments(self) -> &'static [u8] {
        match self {
            Response::Ok => b"ok",
            Response::Yes => b"ok yes",
            Response::No => b"ok no",
            Response::Fail => b"fail",
            Response::Unsupported => b"unsupported",
        }
    }

    /// The response that has exactly these arguments.
    #[must_use]
    pub fn named(arguments: &[u8]) -> Option<Self> {
        Self::ALL.into_iter().find(|response| response.arguments() == arguments)
    }

    /// Whether it fits the command, and its body belongs there: only ok to a request has one.
    #[must_use]
    pub fn fits(self, command: Command, body_len: usize) -> bool {
        let may_have_body = self == Response::Ok && command.is_request();
        FITTING[command as usize][self as usize] && (body_len == 0 || may_have_body)
    }

    /// Its stanza; 17 for a body too long.
    pub(super) fn text(self, body: &[u8]) -> Result<Vec<u8>, Refusal> {
        written(self.arguments(), body)
    }
}

#[cfg(test)]
mod tests {
    use super::*;

    /// The fitting responses of the paper's table, by the words of its rows.
    #[test]
    fn fitting_responses() {
        use Response::{Fail, No, Ok, Unsupported, Yes};
        let expected: [(Command, &[Response]); 9] = [
            (Command::Msg, &[Ok, Fail]),
            (Command::Confirm, &[Yes, No, Fail]),
            (Command::RequestPublic, &[Ok, Fail]),
            (Command::RequestSecret, &[Ok, Fail]),
            (Command::RecipientStanza, &[Ok]),
            (Command::FileKey, &[Ok]),
            (Command::Error, &[Ok]),
            (Command::Other, &[Unsupported]),
            (Command::Done, &[]),
        ];
        for (row, (command, fitting)) in expected.into_iter().enumerate() {
            assert_eq!(command as usize, row);
            for response in Response::ALL {
                assert_eq!(
                    response.fits(command, 0),
                    fitting.contains(&response),
                    "{command:?} {response:?}"
                );
            }
        }
    }

    #[test]
    fn only_ok_to_a_request_has_a_body() {
        for command in Command::ALL {
            for response in Response::ALL {
                let request = matches!(command, Command::RequestPublic | Command::RequestSecret);
                assert_eq!(response.fits(command, 1), request && response == Response::Ok);
            }
        }
    }

    #[test]
    fn responses_by_their_arguments() {
        for response in Response::ALL {
            assert_eq!(Response::named(response.arguments()), Some(response));
        }
        for arguments in
            ["", "OK", "ok ok", "ok  yes", "ok yes no", "yes", "no", "fail fail", "ok fail", "unsupported x"]
        {
            assert_eq!(Response::named(arguments.as_bytes()), None, "{arguments}");
        }
    }
}
