//! Lines to a server's control socket, and their answers.

use std::io::{self, BufRead, BufReader, ErrorKind, Write};
use std::os::unix::net::UnixStream;
use std::path::Path;
use std::time::Duration;

/// How long the server may take for each part of an answer. It serves one control connection at a
/// time, so a line waits for others.
const MOST_WAIT: Duration = Duration::from_secs(30);
/// How the answer to a line begins that the server refuses.
const REFUSED: &str = "error: ";

/// Sends a line to the control socket at this path, and returns the lines before its `ok`.
///
/// # Errors
///
/// `InvalidInput` with the server's reason if it refuses the line, `UnexpectedEof` if it does not
/// answer, and other errors of the connection.
pub(super) fn ask(path: &Path, line: &str) -> io::Result<Vec<String>> {
    if line.contains('\n') {
        let text = format!("{line:?} is more than one line");
        return Err(io::Error::new(ErrorKind::InvalidInput, text));
    }
    let mut stream = UnixStream::connect(path)?;
    stream.set_read_timeout(Some(MOST_WAIT))?;
    stream.write_all(format!("{line}\n").as_bytes())?;
    let mut told = Vec::new();
    for answer in BufReader::new(stream).lines() {
        let answer = answer?;
        if answer == "ok" {
            return Ok(told);
        }
        if let Some(reason) = answer.strip_prefix(REFUSED) {
            return Err(io::Error::new(ErrorKind::InvalidInput, reason));
        }
        told.push(answer);
    }
    let text = "the server closed the control connection without an answer";
    Err(io::Error::new(ErrorKind::UnexpectedEof, text))
}
