//! A Rust client that asks until it is stopped or killed, or its server ends: soak PATH.
#[path = "../clients/rust/src/lib.rs"]
mod zirkoshe;

mod common;

use std::process::ExitCode;
use zirkoshe::Client;

fn main() -> ExitCode {
    common::run(|words| {
        let mut client = Client::open(&words[0])?;
        loop {
            client.version()?;
        }
    })
}
