//! Frames, and how they are sent and received.

use super::client::Row;
use super::constants::{Fault, Rule, LEAST_LENGTH, MOST_LENGTH, MOST_ROWS};
use super::error::{protocol, Error};
use std::io::{self, ErrorKind, Read, Write};
use std::os::unix::net::UnixStream;
use std::path::Path;
use std::sync::mpsc;
use std::thread;
use std::time::{Duration, Instant};

/// A frame to send: its number, and its fields one after the other.
pub(super) struct Frame {
    body: Vec<u8>,
}

impl Frame {
    pub(super) fn new(number: u16) -> Frame {
        Frame {
            body: number.to_le_bytes().to_vec(),
        }
    }

    pub(super) fn u32(mut self, value: impl Into<u32>) -> Frame {
        self.body.extend(value.into().to_le_bytes());
        self
    }

    pub(super) fn u64(mut self, value: u64) -> Frame {
        self.body.extend(value.to_le_bytes());
        self
    }

    /// Length, number and fields. No frame takes more than 1,022 bytes of fields.
    pub(super) fn bytes(&self) -> io::Result<Vec<u8>> {
        if self.body.len() > MOST_LENGTH {
            let text = "more fields than one frame takes";
            return Err(io::Error::new(ErrorKind::InvalidInput, text));
        }
        let mut bytes = (self.body.len() as u32).to_le_bytes().to_vec();
        bytes.extend(&self.body);
        Ok(bytes)
    }
}

/// The fields of an answer that are left to take.
pub(super) struct Fields<'a> {
    pub(super) left: &'a [u8],
}

impl Fields<'_> {
    pub(super) fn take<const N: usize>(&mut self) -> Result<[u8; N], Error> {
        match self.left.split_first_chunk::<N>() {
            Some((taken, left)) => {
                self.left = left;
                Ok(*taken)
            }
            None => protocol("an answer is missing fields"),
        }
    }

    pub(super) fn u32(&mut self) -> Result<u32, Error> {
        Ok(u32::from_le_bytes(self.take()?))
    }

    pub(super) fn u64(&mut self) -> Result<u64, Error> {
        Ok(u64::from_le_bytes(self.take()?))
    }

    /// An id or a handle.
    pub(super) fn id<T: From<u32>>(&mut self) -> Result<T, Error> {
        Ok(T::from(self.u32()?))
    }

    fn count(&mut self, most: u32) -> Result<u32, Error> {
        match self.u32()? {
            count if count <= most => Ok(count),
            count => protocol(format!(
                "an answer has a list of {count} in place of at most {most}"
            )),
        }
    }

    pub(super) fn ids<T: From<u32>>(&mut self, most: u32) -> Result<Vec<T>, Error> {
        let count = self.count(most)?;
        (0..count).map(|_| self.id()).collect()
    }

    pub(super) fn rows(&mut self) -> Result<Vec<Row>, Error> {
        let count = self.count(MOST_ROWS)?;
        (0..count).map(|_| self.row()).collect()
    }

    fn row(&mut self) -> Result<Row, Error> {
        Ok(Row {
            a: self.u64()?,
            b: self.u64()?,
            c: self.u64()?,
            d: self.u64()?,
        })
    }

    pub(super) fn end(&self) -> Result<(), Error> {
        match self.left.len() {
            0 => Ok(()),
            left => protocol(format!("an answer has {left} bytes too many")),
        }
    }
}

/// Returns the refusal of a frame, by a rule or by a fault.
pub(super) fn refusal(is_fault: bool, fields: &mut Fields<'_>) -> Result<Error, Error> {
    let (number, errno) = (fields.u32()?, fields.u32()?);
    fields.end()?;
    let refusal = match is_fault {
        true => Fault::from_number(number).map(Error::Fault),
        false => Rule::from_number(number).map(Error::Denied),
    };
    match refusal.filter(|refusal| refusal.errno().map(i64::from) == Some(i64::from(errno))) {
        Some(refusal) => Ok(refusal),
        None => protocol(format!(
            "the answer has the unknown refusal {number} with errno {errno}"
        )),
    }
}

/// The end of a wait.
pub(super) struct Deadline {
    end: Instant,
}

impl Deadline {
    pub(super) fn new(timeout: Duration) -> io::Result<Deadline> {
        if timeout.is_zero() {
            let text = "the time limit is zero";
            return Err(io::Error::new(ErrorKind::InvalidInput, text));
        }
        match Instant::now().checked_add(timeout) {
            Some(end) => Ok(Deadline { end }),
            None => {
                let text = "the time limit is out of range";
                Err(io::Error::new(ErrorKind::InvalidInput, text))
            }
        }
    }

    /// Returns how long is left, which is more than nothing.
    pub(super) fn left(&self) -> io::Result<Duration> {
        match self.end.checked_duration_since(Instant::now()) {
            Some(left) if !left.is_zero() => Ok(left),
            _ => Err(timed_out()),
        }
    }
}

fn timed_out() -> io::Error {
    io::Error::new(ErrorKind::TimedOut, "the server didn't answer in time")
}

/// Returns how much was moved, or none if the system call was interrupted. Some systems report
/// the end of the time as `WouldBlock`.
fn moved(result: io::Result<usize>) -> io::Result<Option<usize>> {
    match result {
        Ok(count) => Ok(Some(count)),
        Err(error) => match error.kind() {
            ErrorKind::Interrupted => Ok(None),
            ErrorKind::WouldBlock | ErrorKind::TimedOut => Err(timed_out()),
            _ => Err(error),
        },
    }
}

/// Connects. If the listener's queue is full the system waits, and std has no time limit for
/// that. So another thread connects, which continues for a while after the time limit.
pub(super) fn connect(path: &Path, deadline: &Deadline) -> io::Result<UnixStream> {
    let (sender, receiver) = mpsc::channel();
    let named = path.to_path_buf();
    thread::Builder::new().spawn(move || {
        let _ = sender.send(UnixStream::connect(named));
    })?;
    receiver
        .recv_timeout(deadline.left()?)
        .unwrap_or_else(|_| Err(timed_out()))
}

/// Writes all of the text.
fn send_all(stream: &mut UnixStream, mut text: &[u8], deadline: &Deadline) -> io::Result<()> {
    while !text.is_empty() {
        stream.set_write_timeout(Some(deadline.left()?))?;
        match moved(stream.write(text))? {
            Some(0) => return Err(ErrorKind::WriteZero.into()),
            sent => text = &text[sent.unwrap_or(0)..],
        }
    }
    Ok(())
}

/// Reads some bytes, none if the server closed the connection.
pub(super) fn receive(
    stream: &mut UnixStream,
    into: &mut [u8],
    deadline: &Deadline,
) -> io::Result<usize> {
    loop {
        stream.set_read_timeout(Some(deadline.left()?))?;
        if let Some(count) = moved(stream.read(into))? {
            return Ok(count);
        }
    }
}

/// Reads `size` bytes, or those before the connection's end.
fn receive_all(stream: &mut UnixStream, size: usize, deadline: &Deadline) -> io::Result<Vec<u8>> {
    let mut bytes = vec![0; size];
    let mut taken = 0;
    while taken < size {
        match receive(stream, &mut bytes[taken..], deadline)? {
            0 => break,
            more => taken += more,
        }
    }
    bytes.truncate(taken);
    Ok(bytes)
}

/// Sends a frame, and returns the number and the fields of the frame that answers it.
pub(super) fn exchange(
    stream: &mut UnixStream,
    text: &[u8],
    deadline: &Deadline,
) -> Result<Vec<u8>, Error> {
    send_all(stream, text, deadline)?;
    let length = receive_all(stream, 4, deadline)?;
    if length.is_empty() {
        let text = "the server closed the connection";
        return Err(io::Error::new(ErrorKind::UnexpectedEof, text).into());
    }
    let Ok(length) = <[u8; 4]>::try_from(length) else {
        return protocol("the connection ended inside an answer");
    };
    let length = u32::from_le_bytes(length) as usize;
    if !(LEAST_LENGTH..=MOST_LENGTH).contains(&length) {
        return protocol(format!("an answer has the invalid length {length}"));
    }
    let body = receive_all(stream, length, deadline)?;
    if body.len() < length {
        return protocol("the connection ended inside an answer");
    }
    Ok(body)
}
