//! Openings: `opening PATH`, which names no socket, fails; `opening planes PATH` prints how many planes clients see at first.
#[path = "../clients/rust/src/lib.rs"]
mod zirkoshe;

mod common;

use std::error::Error as _;
use std::io;
use std::process::ExitCode;
use std::time::Duration;
use zirkoshe::{Client, ClientBuilder, Error, Hello};

fn fail(path: &str) {
    let absent = Client::open(path).unwrap_err();
    println!("no server: {absent}");
    let source = absent.source().and_then(|source| source.downcast_ref());
    println!("its source: {:?}", source.map(io::Error::kind));
    let no_time = Client::builder().timeout(Duration::ZERO);
    println!("no time: {}", no_time.open(path).unwrap_err());
    println!("an empty path: {}", Client::open("").unwrap_err());
    let no_lease = Client::builder().lease(1).open(path).unwrap_err();
    println!("no lease: {:?} {:?}", no_lease.io_kind(), no_lease.errno());
}

fn count(what: &str, builder: ClientBuilder, path: &str) -> Result<(), Error> {
    let mut client = builder.open(path)?;
    println!("{what}: {} planes", client.getplaneresources()?.len());
    client.close()
}

fn main() -> ExitCode {
    common::run(|words| match words {
        [path] => {
            fail(path);
            Ok(())
        }
        [_, path] => {
            count("by default", Client::builder(), path)?;
            count("version 1", Client::builder().hello(Hello::Version1), path)?;
            count("version 2", Client::builder().hello(Hello::Version2), path)
        }
        _ => Err(Error::Protocol("a wrong command line".into())),
    })
}
