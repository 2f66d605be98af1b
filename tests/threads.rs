//! A Rust client after a mutex that two threads share: each asks another encoder 10,000 times, and the answers that are the
//! other's are counted. With a second word it asks once for the version, and prints what that gives.
#[path = "../clients/rust/src/lib.rs"]
mod zirkoshe;

mod common;

use std::process::ExitCode;
use std::sync::Mutex;
use std::thread;
use zirkoshe::{Client, EncoderId, Error};

const ASKED: usize = 10_000;

/// How many answers were the other thread's.
fn ask(client: &Mutex<Client>, encoder: EncoderId, possible_crtcs: u32) -> Result<usize, Error> {
    let mut swapped = 0;
    for _ in 0..ASKED {
        swapped += usize::from(client.lock().unwrap().getencoder(encoder)? != possible_crtcs);
    }
    Ok(swapped)
}

fn share(client: Client) -> Result<(), Error> {
    let client = Mutex::new(client);
    let swapped = thread::scope(|scope| {
        let asked = [(5, 3), (6, 2)].map(|(encoder, wanted)| {
            let client = &client;
            scope.spawn(move || ask(client, EncoderId(encoder), wanted))
        });
        asked.map(|thread| thread.join().unwrap())
    });
    let [first, second] = swapped;
    println!("{} swapped, 0 failed", first? + second?);
    client.into_inner().unwrap().close()
}

fn main() -> ExitCode {
    common::run(|words| {
        let mut client = Client::open(&words[0])?;
        match words.len() {
            1 => share(client),
            _ => client.version().map(|_| ()),
        }
    })
}
