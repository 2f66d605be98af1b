//! The errors of calls and openings.

use super::constants::{Fault, Rule};
use std::error;
use std::fmt;
use std::io;
use std::path::PathBuf;

/// The reason why a call or an opening failed.
///
/// `Denied`, `Fault` and `Forked` leave the connection unchanged. After `Io` and `Protocol` it is
/// closed, because a late answer could be taken for another call's. `InvalidInput`, and the time
/// limit of [`wait_until_closed`](super::Client::wait_until_closed), leave it open.
///
/// Its text says what failed and why. That of `Open` and `Io` includes the text of the
/// [`source`](error::Error::source), which is the `io::Error`.
#[derive(Debug)]
#[non_exhaustive]
pub enum Error {
    /// A rule denies it, and nothing changed.
    Denied(Rule),
    /// A fault outside the rules, and nothing changed.
    Fault(Fault),
    /// The server cannot be reached at this path.
    Open {
        /// The path of the socket.
        path: PathBuf,
        /// The reason.
        source: io::Error,
    },
    /// The connection failed: `TimedOut` if the server did not answer in time, `UnexpectedEof` if
    /// it has exited, `NotConnected` if an earlier error closed the connection.
    Io(io::Error),
    /// The answer is malformed, is cut off, or is not of the call's kind.
    Protocol(String),
    /// The client is that of the parent of this process, which can only close it.
    Forked,
}

impl Error {
    /// Returns the error number of a refusal, or of a failed system call.
    pub fn errno(&self) -> Option<i32> {
        match self {
            Error::Denied(rule) => Some(rule.errno()),
            Error::Fault(fault) => Some(fault.errno()),
            Error::Open { source, .. } | Error::Io(source) => source.raw_os_error(),
            Error::Protocol(_) | Error::Forked => None,
        }
    }

    /// Returns the kind of a failure of the connection.
    pub fn io_kind(&self) -> Option<io::ErrorKind> {
        match self {
            Error::Open { source, .. } | Error::Io(source) => Some(source.kind()),
            _ => None,
        }
    }
}

impl fmt::Display for Error {
    fn fmt(&self, out: &mut fmt::Formatter<'_>) -> fmt::Result {
        match self {
            Error::Denied(rule) => {
                write!(out, "denied {} {rule} {}", rule.number(), rule.errno())
            }
            Error::Fault(fault) => {
                write!(out, "apart {} {fault} {}", fault.number(), fault.errno())
            }
            Error::Open { path, source } => {
                write!(out, "can't connect to {}: {source}", path.display())
            }
            // nothing was sent
            Error::Io(source) if source.kind() == io::ErrorKind::InvalidInput => {
                write!(out, "{source}")
            }
            Error::Io(source) => write!(out, "the connection failed: {source}"),
            Error::Protocol(text) => write!(out, "{text}"),
            Error::Forked => {
                write!(
                    out,
                    "this process is a child of the one that opened the client"
                )
            }
        }
    }
}

impl error::Error for Error {
    fn source(&self) -> Option<&(dyn error::Error + 'static)> {
        match self {
            Error::Open { source, .. } | Error::Io(source) => Some(source),
            _ => None,
        }
    }
}

impl From<io::Error> for Error {
    fn from(error: io::Error) -> Error {
        Error::Io(error)
    }
}

pub(super) fn protocol<T>(text: impl Into<String>) -> Result<T, Error> {
    Err(Error::Protocol(text.into()))
}
