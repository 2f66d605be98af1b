//! A client of a hostile server: hostile PATH COUNT MILLISECONDS. One after the other it makes COUNT connections, each with an
//! opening, a call and a closing within this time limit. Prints the first error of each connection, or that there was none.
#[path = "../clients/rust/src/lib.rs"]
mod zirkoshe;

mod common;

use std::io::ErrorKind;
use std::process::ExitCode;
use std::time::Duration;
use zirkoshe::{AuditKind, Client, ConnectorId, CrtcId, EncoderId, Error, FramebufferId, PlaneId};

/// Makes a call of each kind of answer.
fn call(client: &mut Client, which: u32) -> Result<(), Error> {
    match which % 12 {
        0 => client.version().map(drop),
        1 => client.set_master(),
        2 => client.getencoder(EncoderId(5)).map(drop),
        3 => client.get_cap(5).map(drop),
        4 => client.create_dumb(64, 64, 32).map(drop),
        5 => client.buf_create(1).map(drop),
        6 => client.list_handles(0).map(drop),
        7 => client.getresources().map(drop),
        8 => client.getplane(PlaneId(3)).map(drop),
        9 => client.getfb(FramebufferId(9)).map(drop),
        10 => {
            let ids = [CrtcId(2).into(), PlaneId(4).into(), ConnectorId(8).into()];
            client.create_lease(&ids).map(drop)
        }
        _ => client.audit(AuditKind::Client, 0).map(drop),
    }
}

fn connect(path: &str, timeout: Duration, which: u32) -> Result<(), Error> {
    let mut client = Client::builder().timeout(timeout).open(path)?;
    call(&mut client, which)?;
    client.close()
}

fn end_of(result: Result<(), Error>) -> String {
    match result {
        Ok(()) => "done".into(),
        Err(Error::Protocol(_)) => "malformed".into(),
        Err(error) => match error.io_kind() {
            Some(ErrorKind::TimedOut) => "late".into(),
            Some(ErrorKind::UnexpectedEof | ErrorKind::ConnectionReset | ErrorKind::BrokenPipe) => {
                "gone".into()
            }
            _ => error.to_string(),
        },
    }
}

fn main() -> ExitCode {
    common::run(|words| {
        let timeout = Duration::from_millis(words[2].parse().unwrap());
        for which in 0..words[1].parse().unwrap() {
            println!("{}", end_of(connect(&words[0], timeout, which)));
        }
        Ok(())
    })
}
