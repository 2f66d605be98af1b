//! A client of drm_server, over std alone (edition 2021, Rust 1.77 or later).
//!
//! A [`Client`] is one connection to one of the server's sockets, with a method for each call. A
//! rule that denies a call is [`Error::Denied`], a fault outside the rules [`Error::Fault`]. Both
//! change nothing. docs/FRAMES.md has the calls, the answers and the frames.
//!
//! ```
//! use zirkoshe::{testing::Server, Client, ConnectorId, CrtcId, Error, PlaneId, Rule};
//!
//! # fn main() -> Result<(), Box<dyn std::error::Error>> {
//! let server = Server::start()?;
//! let mut compositor = Client::open(server.card())?;
//! let output = [CrtcId(2).into(), PlaneId(4).into(), ConnectorId(8).into()];
//! let lease = compositor.create_lease(&output)?;
//! let again = compositor.create_lease(&output);
//! assert!(matches!(again, Err(Error::Denied(Rule::LeasedOut))));
//!
//! let mut lessee = Client::builder().lease(lease.token).open(server.card())?;
//! assert_eq!(lessee.getresources()?.crtcs, [CrtcId(2)]);
//! # Ok(())
//! # }
//! ```
// a program that includes the sources uses some of the calls
#![allow(dead_code, unused_imports)]
#![forbid(unsafe_code)]

mod client;
mod constants;
mod control;
mod error;
mod frames;
mod ids;
pub mod pictures;
pub mod testing;

pub use client::{
    Buffer, Client, ClientBuilder, Dumb, Framebuffer, Hello, Lease, Plane, Resources, Row, Version,
    DEFAULT_TIMEOUT,
};
pub use constants::{cap, client_cap, client_flag, errno, limit, AuditKind, Fault, Rule};
pub use error::Error;
pub use ids::{BufferHandle, ConnectorId, CrtcId, EncoderId, FramebufferId, ObjectId, PlaneId};
