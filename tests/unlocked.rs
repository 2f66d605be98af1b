//! What doesn't compile: two threads that share a Rust client without a lock.
#[path = "../clients/rust/src/lib.rs"]
mod zirkoshe;

use std::thread;
use zirkoshe::{Client, EncoderId};

fn main() {
    let mut client = Client::open("card").unwrap();
    thread::scope(|scope| {
        for encoder in [5, 6].map(EncoderId) {
            let client = &mut client;
            scope.spawn(move || client.getencoder(encoder));
        }
    });
}
