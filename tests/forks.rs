//! A process that forks while it has a client: forks PATH. Prints what the client's methods return in the child, and then in the
//! parent.
#[path = "../clients/rust/src/lib.rs"]
mod zirkoshe;

mod common;

use std::process::{self, ExitCode};
use std::ptr;
use zirkoshe::{Client, Error};

extern "C" {
    fn fork() -> i32;
    fn wait(status: *mut i32) -> i32;
}

fn tell(what: &str, result: Result<(), Error>) {
    match result {
        Ok(()) => println!("{what}: done"),
        Err(error) => println!("{what}: {error}"),
    }
}

fn ask(client: &mut Client) -> Result<(), Error> {
    client.version().map(drop)
}

fn main() -> ExitCode {
    common::run(|words| {
        let mut client = Client::open(&words[0])?;
        // there is no other thread
        if unsafe { fork() } == 0 {
            tell("a call of the child", ask(&mut client));
            tell("its closing", client.close());
            process::exit(0);
        }
        unsafe { wait(ptr::null_mut()) };
        tell("a call of the parent", ask(&mut client));
        tell("its closing", client.close());
        Ok(())
    })
}
