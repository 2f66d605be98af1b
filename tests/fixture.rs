//! The server of a test in Rust, as a user of the crate has it.
use std::fs;
use zirkoshe::testing::Server;
use zirkoshe::{Client, Error, Rule};

#[test]
fn server_ends_when_it_is_dropped() {
    let server = Server::start().unwrap();
    let card = server.card().to_path_buf();
    assert!(card.exists());
    drop(server);
    assert!(!card.exists());
}

#[test]
fn options_reach_the_server() {
    let journal = std::env::temp_dir().join("journal.script");
    let limits = "1 1 1 1 1 1 1 10";
    let builder = Server::builder().limits(limits).renders(0).roots(1);
    let server = builder.journal(&journal).start().unwrap();
    let first = Client::open(server.card()).unwrap();
    let second = Client::open(server.card());
    assert!(matches!(second, Err(Error::Denied(Rule::Full))));
    first.close().unwrap();
    assert_eq!(server.end().unwrap(), "device 0 0 0 3\n");
    let written = fs::read_to_string(&journal).unwrap();
    assert_eq!(written.lines().next(), Some("limits 1 1 1 1 1 1 1 10"));
}

#[test]
fn server_that_does_not_start_says_why() {
    let absent = Server::builder().program("/nonexistent").start();
    assert_eq!(absent.unwrap_err().kind(), std::io::ErrorKind::NotFound);
    let failed = Server::builder().limits("0").start().unwrap_err();
    assert!(failed
        .to_string()
        .starts_with("the server ended before it listened, with "));
}

#[test]
fn environment_names_the_sockets() {
    let server = Server::start().unwrap();
    let names = server.environment().map(|(name, _)| name);
    assert_eq!(
        names,
        ["DRM_SERVER_CARD", "DRM_SERVER_RENDER", "DRM_SERVER_ROOT"]
    );
    assert_eq!(server.environment()[0].1, server.card());
}
