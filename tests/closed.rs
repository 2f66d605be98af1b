//! A root client that waits until the client of a number is closed: closed PATH NUMBER MILLISECONDS.
#[path = "../clients/rust/src/lib.rs"]
mod zirkoshe;

mod common;

use std::io::ErrorKind;
use std::process::ExitCode;
use std::time::Duration;
use zirkoshe::{Client, Error, DEFAULT_TIMEOUT};

fn main() -> ExitCode {
    common::run(|words| {
        let mut root = Client::open(&words[0])?;
        root.set_timeout(Duration::from_millis(words[2].parse().unwrap()));
        match root.wait_until_closed(words[1].parse().unwrap()) {
            Ok(()) => println!("closed"),
            Err(Error::Io(error)) if error.kind() == ErrorKind::TimedOut => println!("open"),
            Err(error) => return Err(error),
        }
        // the connection continues
        root.set_timeout(DEFAULT_TIMEOUT);
        root.version()?;
        root.close()
    })
}
