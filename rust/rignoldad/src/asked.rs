//! What operators asked for that changes something, as a fact of the journal.
use nix::sys::socket::{getsockopt, sockopt::PeerCredentials};
use rignolda_machine::settings::shown;
use rignoldactl::Request;
use std::os::unix::io::AsRawFd;

/// The user of the process that asks over this connection, as the system knows it.
pub fn user(socket: &impl AsRawFd) -> Option<u32> {
    getsockopt(socket.as_raw_fd(), PeerCredentials).ok().map(|it| it.uid())
}

/// Who asks: this user, and what the process says of that itself, where it says more.
pub fn by(user: Option<u32>, said: &str) -> String {
    let user = user.map_or("a user who is gone".into(), |it| format!("uid {it}"));
    match said {
        "" => user,
        said if said == user => user,
        said => format!("{user} (it says: {said})"),
    }
}

/// What a request changes, in words; nothing where it only asks. Of a value they have its length.
pub fn words(request: &Request) -> Option<String> {
    Some(match request {
        Request::Publish { key, value } => {
            format!("publish {} of {} bytes", shown(key), value.len())
        }
        Request::Unset { key } => format!("unset {}", shown(key)),
        Request::PromoteValue { key } => format!("promote-value {}", shown(key)),
        Request::Confirm { .. } => "confirm".into(),
        Request::Promote { as_is: true } => "promote --as-is".into(),
        Request::Promote { as_is: false } => "promote".into(),
        Request::Demote => "demote".into(),
        Request::Drain => "drain".into(),
        Request::Resume => "resume".into(),
        Request::ChildAdd { name } => format!("child add {name}"),
        Request::ChildRemove { name } => format!("child remove {name}"),
        Request::Forget { name } => format!("forget {name}"),
        _ => return None,
    })
}
