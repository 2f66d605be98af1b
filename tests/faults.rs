//! Faults on purpose, planned by a test's server in Rust, as a user of the crate has it.
use std::io::ErrorKind;
use std::time::{Duration, Instant};
use zirkoshe::testing::Server;
use zirkoshe::{BufferHandle, Client, Error, Fault};

fn is_without_memory<T>(answer: Result<T, Error>) -> bool {
    matches!(answer, Err(Error::Fault(Fault::NoMemory)))
}

#[test]
fn memory_is_refused_to_the_second_call() {
    let server = Server::builder().control().start().unwrap();
    let mut client = Client::open(server.card()).unwrap();
    server.fail("create_dumb", 2).unwrap();
    client.create_dumb(64, 64, 32).unwrap();
    assert!(is_without_memory(client.create_dumb(64, 64, 32)));
    assert_eq!(client.list_handles(0).unwrap(), [BufferHandle(1)]);
    let third = client.create_dumb(64, 64, 32).unwrap();
    assert_eq!(third.handle, BufferHandle(2));
}

#[test]
fn memory_is_refused_to_an_opening() {
    let server = Server::builder().control().start().unwrap();
    server.fail("open", 1).unwrap();
    assert!(is_without_memory(Client::open(server.render())));
    assert_eq!(Client::open(server.render()).unwrap().number(), 1);
}

#[test]
fn answers_are_late() {
    let server = Server::builder().control().start().unwrap();
    let mut client = Client::open(server.card()).unwrap();
    let delay = Duration::from_micros(200_500);
    server.stall("version", 2, delay).unwrap();
    client.version().unwrap();
    let begin = Instant::now();
    client.version().unwrap();
    assert!(begin.elapsed() >= delay);
}

#[test]
fn connection_breaks() {
    let server = Server::builder().control().start().unwrap();
    let mut client = Client::open(server.card()).unwrap();
    let mut root = Client::open(server.root()).unwrap();
    server.break_connection(client.number(), 2).unwrap();
    client.version().unwrap();
    let broken = client.version().unwrap_err();
    assert_eq!(broken.io_kind(), Some(ErrorKind::UnexpectedEof));
    root.wait_until_closed(client.number()).unwrap();
}

#[test]
fn plans_are_listed_and_forgotten() {
    let server = Server::builder().control().start().unwrap();
    server.fail("create_dumb", 2).unwrap();
    assert_eq!(
        server.planned_faults().unwrap(),
        ["fail create_dumb:2=memory"]
    );
    server.clear_faults().unwrap();
    assert!(server.planned_faults().unwrap().is_empty());
    assert_eq!(server.end().unwrap(), "device 0 0 0 0\n");
}

#[test]
fn plans_that_are_refused_say_why() {
    let server = Server::builder().control().start().unwrap();
    for (call, nth, reason) in [
        ("creat_dumb", 1, "`creat_dumb` is no call"),
        ("version", 1, "`version` adds no row"),
        ("create_dumb", 0, "`0` is out of range: 1 to 65535"),
    ] {
        let error = server.fail(call, nth).unwrap_err();
        assert_eq!(error.kind(), ErrorKind::InvalidInput);
        assert_eq!(error.to_string(), reason);
    }
    let error = server.fail("create_dumb\nclear", 1).unwrap_err();
    assert_eq!(error.kind(), ErrorKind::InvalidInput);
    let plain = Server::start().unwrap();
    let error = plain.clear_faults().unwrap_err();
    assert_eq!(error.kind(), ErrorKind::Unsupported);
}
