//! Runs a script of a few calls as `drm_server run` does, for a comparison of their instructions.
//!
//! It is plain Rust over std, without contracts and proofs. It knows `open L card`, `close L`, and of a client `version`,
//! `buf_create`, `gem_close`, `stamp_write` and `stamp_read`, with the same answers and refusals. Any other line ends it
//! with status 1. It keeps a journal of its steps, as the server does, and checks no limit of the device.

use std::cmp::Reverse;
use std::collections::BinaryHeap;
use std::fmt;
use std::io::{self, BufRead, Write};
use std::process::ExitCode;

/// The unit of buffer sizes in bytes, and the largest size.
const PAGE: u64 = 4096;
const MOST_SIZE: u64 = 1 << 36;
/// The greatest length of a line in bytes.
const MOST_LINE: usize = 255;

/// A line of a script.
#[derive(Clone, Copy)]
enum Event {
    Open { label: u8 },
    Close { label: u8 },
    Call { label: u8, call: Call },
}

#[derive(Clone, Copy)]
enum Call {
    Version,
    BufCreate { size: u64 },
    GemClose { handle: u32 },
    StampWrite { handle: u32, stamp: u64 },
    StampRead { handle: u32 },
}

enum Answer {
    Client(u32),
    Version,
    Buffer { handle: u32, size: u64 },
    Number(u64),
    Done,
    Closed,
}

#[derive(Clone, Copy)]
enum Denial {
    NoClient,
    NoHandle,
    NoHandleToClose,
    BadSize,
}

impl fmt::Display for Answer {
    fn fmt(&self, out: &mut fmt::Formatter<'_>) -> fmt::Result {
        match self {
            Answer::Client(client) => write!(out, "client {client}"),
            Answer::Version => out.write_str("version 1 0 0"),
            Answer::Buffer { handle, size } => write!(out, "buffer {handle} {size}"),
            Answer::Number(number) => write!(out, "number {number}"),
            Answer::Done => out.write_str("done"),
            Answer::Closed => out.write_str("closed"),
        }
    }
}

impl fmt::Display for Denial {
    fn fmt(&self, out: &mut fmt::Formatter<'_>) -> fmt::Result {
        out.write_str(match self {
            Denial::NoClient => "denied 3 NoClient 22",
            Denial::NoHandle => "denied 21 NoHandle 2",
            Denial::NoHandleToClose => "denied 22 NoHandleToClose 22",
            Denial::BadSize => "denied 39 BadSize 22",
        })
    }
}

/// A buffer. No other client can have a handle of it.
struct Buffer {
    stamp: u64,
}

/// A client's handles, numbered from 1.
#[derive(Default)]
struct Client {
    buffers: Vec<Option<Buffer>>,
    free: BinaryHeap<Reverse<usize>>,
}

impl Client {
    fn create(&mut self, size: u64) -> Result<Answer, Denial> {
        if size == 0 || size > MOST_SIZE {
            return Err(Denial::BadSize);
        }
        let buffer = Some(Buffer { stamp: 0 });
        let place = match self.free.pop() {
            Some(Reverse(place)) => {
                self.buffers[place] = buffer;
                place
            }
            None => {
                self.buffers.push(buffer);
                self.buffers.len() - 1
            }
        };
        let size = size.div_ceil(PAGE) * PAGE;
        Ok(Answer::Buffer {
            handle: place as u32 + 1,
            size,
        })
    }

    /// Returns the place of a handle's buffer, or `None` for handle 0.
    fn slot(&mut self, handle: u32) -> Option<(usize, &mut Option<Buffer>)> {
        let place = (handle as usize).checked_sub(1)?;
        self.buffers.get_mut(place).map(|slot| (place, slot))
    }

    fn buffer(&mut self, handle: u32) -> Result<&mut Buffer, Denial> {
        self.slot(handle)
            .and_then(|(_, slot)| slot.as_mut())
            .ok_or(Denial::NoHandle)
    }

    fn close(&mut self, handle: u32) -> Result<Answer, Denial> {
        let (place, slot) = self.slot(handle).ok_or(Denial::NoHandleToClose)?;
        slot.take().ok_or(Denial::NoHandleToClose)?;
        self.free.push(Reverse(place));
        Ok(Answer::Done)
    }
}

/// The clients by their labels, and the steps so far.
struct Device {
    clients: [Option<Client>; 26],
    journal: Vec<Event>,
}

impl Device {
    fn new() -> Self {
        Device {
            clients: Default::default(),
            journal: Vec::new(),
        }
    }

    fn client(&mut self, label: u8) -> Result<&mut Client, Denial> {
        self.clients[usize::from(label)]
            .as_mut()
            .ok_or(Denial::NoClient)
    }

    fn call(&mut self, label: u8, call: Call) -> Result<Answer, Denial> {
        let client = self.client(label)?;
        match call {
            Call::Version => Ok(Answer::Version),
            Call::BufCreate { size } => client.create(size),
            Call::GemClose { handle } => client.close(handle),
            Call::StampWrite { handle, stamp } => {
                client.buffer(handle)?.stamp = stamp;
                Ok(Answer::Done)
            }
            Call::StampRead { handle } => Ok(Answer::Number(client.buffer(handle)?.stamp)),
        }
    }

    fn step(&mut self, event: Event) -> Result<Answer, Denial> {
        self.journal.push(event);
        match event {
            Event::Open { label } => {
                self.clients[usize::from(label)] = Some(Client::default());
                Ok(Answer::Client(self.journal.len() as u32))
            }
            Event::Close { label } => {
                let client = self.clients[usize::from(label)].take();
                client.map(|_| Answer::Closed).ok_or(Denial::NoClient)
            }
            Event::Call { label, call } => self.call(label, call),
        }
    }
}

/// Returns a label's number, or `None` if the word is not one letter from `a` to `z`.
fn label(word: &str) -> Option<u8> {
    match word.as_bytes() {
        [letter @ b'a'..=b'z'] => Some(letter - b'a'),
        _ => None,
    }
}

/// Returns the event of a line, or `None` if the line is malformed.
fn event(line: &str) -> Option<Event> {
    let mut words = line.split(' ').filter(|word| !word.is_empty());
    let read = match (words.next()?, words.next()?) {
        ("open", word) if words.next()? == "card" => Event::Open {
            label: label(word)?,
        },
        ("close", word) => Event::Close {
            label: label(word)?,
        },
        (word, name) => {
            let call = match name {
                "version" => Call::Version,
                "buf_create" => Call::BufCreate {
                    size: number(words.next()?)?,
                },
                "gem_close" => Call::GemClose {
                    handle: number(words.next()?)?,
                },
                "stamp_write" => Call::StampWrite {
                    handle: number(words.next()?)?,
                    stamp: number(words.next()?)?,
                },
                "stamp_read" => Call::StampRead {
                    handle: number(words.next()?)?,
                },
                _ => return None,
            };
            Event::Call {
                label: label(word)?,
                call,
            }
        }
    };
    words.next().is_none().then_some(read)
}

/// Returns the number of a word of decimal digits.
fn number<N: std::str::FromStr>(word: &str) -> Option<N> {
    if word.starts_with('+') {
        return None;
    }
    word.parse().ok()
}

/// Returns whether a line is skipped: a comment, or without a word.
fn is_skipped(line: &str) -> bool {
    line.starts_with('#') || line.bytes().all(|byte| byte == b' ')
}

/// Runs a script, and returns whether all of its lines are well formed.
fn run(mut script: impl BufRead, mut answers: impl Write) -> io::Result<bool> {
    let mut device = Device::new();
    let mut text = String::new();
    while script.read_line(&mut text)? > 0 {
        let line = text.strip_suffix('\n').unwrap_or(&text);
        if line.len() > MOST_LINE || !line.is_ascii() {
            return Ok(false);
        }
        if !is_skipped(line) {
            let Some(event) = event(line) else {
                return Ok(false);
            };
            match device.step(event) {
                Ok(answer) => writeln!(answers, "{answer}")?,
                Err(denial) => writeln!(answers, "{denial}")?,
            }
        }
        text.clear();
    }
    answers.flush()?;
    Ok(true)
}

fn main() -> ExitCode {
    match run(io::stdin().lock(), io::BufWriter::new(io::stdout().lock())) {
        Ok(true) => ExitCode::SUCCESS,
        Ok(false) | Err(_) => ExitCode::FAILURE,
    }
}
