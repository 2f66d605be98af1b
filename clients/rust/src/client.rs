//! The client: a connection, its answers, and a method for each call.

use super::constants::{answer, call, AuditKind, HELLO, MOST_IDS, MOST_LENGTH, MOST_ROWS};
use super::error::{protocol, Error};
use super::frames::{connect, exchange, receive, refusal, Deadline, Fields, Frame};
use super::ids::{
    or_zero, unless_zero, BufferHandle, ConnectorId, CrtcId, EncoderId, FramebufferId, ObjectId,
    PlaneId,
};
use std::io::{self, ErrorKind};
use std::net::Shutdown;
use std::os::unix::net::UnixStream;
use std::path::Path;
use std::process;
use std::thread;
use std::time::Duration;

/// The time limit of an opening, a call and the closing by default.
pub const DEFAULT_TIMEOUT: Duration = Duration::from_secs(30);

/// The version of the interface.
#[derive(Debug, Clone, Copy, PartialEq, Eq)]
pub struct Version {
    pub major: u32,
    pub minor: u32,
    pub patch: u32,
}

/// A dumb buffer, with its pitch and its size in bytes.
#[derive(Debug, Clone, Copy, PartialEq, Eq)]
pub struct Dumb {
    pub handle: BufferHandle,
    pub pitch: u32,
    pub size: u64,
}

/// A buffer, with its size in bytes.
#[derive(Debug, Clone, Copy, PartialEq, Eq)]
pub struct Buffer {
    pub handle: BufferHandle,
    pub size: u64,
}

/// The mode objects that a client sees.
#[derive(Debug, Clone, PartialEq, Eq)]
pub struct Resources {
    pub crtcs: Vec<CrtcId>,
    pub connectors: Vec<ConnectorId>,
    pub encoders: Vec<EncoderId>,
    pub framebuffers: Vec<FramebufferId>,
}

/// What a plane shows, and the mask of the CRTCs that it can be shown on.
#[derive(Debug, Clone, Copy, PartialEq, Eq)]
pub struct Plane {
    pub framebuffer: Option<FramebufferId>,
    pub possible_crtcs: u32,
}

/// A framebuffer. Its handle is new, and none if the caller may not have one.
#[derive(Debug, Clone, Copy, PartialEq, Eq)]
pub struct Framebuffer {
    pub width: u32,
    pub height: u32,
    pub pitch: u32,
    pub bpp: u32,
    pub handle: Option<BufferHandle>,
}

/// A lease: the lessee's id, and the token that opens its client.
#[derive(Debug, Clone, Copy, PartialEq, Eq)]
pub struct Lease {
    pub lessee_id: u32,
    pub token: u32,
}

/// A row of an audit. [`AuditKind`] says what the four numbers of each kind are.
#[derive(Debug, Clone, Copy, PartialEq, Eq)]
pub struct Row {
    pub a: u64,
    pub b: u64,
    pub c: u64,
    pub d: u64,
}

/// The version of the hello that opens a client.
#[derive(Debug, Clone, Copy, PartialEq, Eq, Default)]
#[non_exhaustive]
pub enum Hello {
    /// Universal planes are on from the start.
    Version1,
    /// Universal planes are off until `set_client_cap(client_cap::UNIVERSAL_PLANES, 1)`, as in a
    /// kernel.
    #[default]
    Version2,
}

/// The options of an opening.
///
/// ```
/// use zirkoshe::{testing::Server, Client, Hello, PlaneId};
/// use std::time::Duration;
///
/// # fn main() -> Result<(), Box<dyn std::error::Error>> {
/// let server = Server::start()?;
/// let mut client = Client::builder()
///     .hello(Hello::Version1)
///     .timeout(Duration::from_secs(5))
///     .open(server.card())?;
/// assert_eq!(client.getplaneresources()?, [PlaneId(3), PlaneId(4)]);
/// # Ok(())
/// # }
/// ```
#[derive(Debug, Clone, Copy)]
#[must_use]
pub struct ClientBuilder {
    hello: Hello,
    lease: Option<u32>,
    timeout: Duration,
}

impl ClientBuilder {
    /// Sets the version of the hello, which is version 2 by default.
    pub fn hello(mut self, hello: Hello) -> ClientBuilder {
        self.hello = hello;
        self
    }

    /// Opens by this lease token, on the card or the root socket, and spends it.
    pub fn lease(mut self, token: u32) -> ClientBuilder {
        self.lease = Some(token);
        self
    }

    /// Sets the time limit of the opening, of each call and of the closing.
    pub fn timeout(mut self, timeout: Duration) -> ClientBuilder {
        self.timeout = timeout;
        self
    }

    /// Opens the node of this path: the server's card, render or root socket.
    ///
    /// # Errors
    ///
    /// `Error::Open` if the server cannot be reached or the time limit is zero, `Error::Io` if the
    /// path is empty, and those of calls.
    pub fn open(self, path: impl AsRef<Path>) -> Result<Client, Error> {
        let path = path.as_ref();
        if path.as_os_str().is_empty() {
            let text = "the socket's path is empty: is DRM_SERVER_CARD set?";
            return Err(io::Error::new(ErrorKind::InvalidInput, text).into());
        }
        let stream = Deadline::new(self.timeout)
            .and_then(|deadline| connect(path, &deadline))
            .map_err(|source| Error::Open {
                path: path.to_path_buf(),
                source,
            })?;
        let mut client = Client {
            stream: Some(stream),
            process: process::id(),
            timeout: self.timeout,
            number: 0,
        };
        let version: u32 = match self.hello {
            Hello::Version1 => 1,
            Hello::Version2 => 2,
        };
        let hello = Frame::new(HELLO)
            .u32(version)
            .u32(self.lease.is_some())
            .u32(self.lease.unwrap_or(0));
        client.number = client.ask(hello, answer::OPENED, |fields| fields.u32())?;
        Ok(client)
    }
}

/// One connection, and the client that the server opened for it.
///
/// Dropping it ends the connection; [`close`](Client::close) also waits until the server has
/// closed the client. Threads share a client only in a lock, such as `Mutex<Client>`.
///
/// After a fork, a client is the parent's. In the child each call fails with [`Error::Forked`], and
/// closing or dropping it closes the child's copy of the socket alone.
#[derive(Debug)]
pub struct Client {
    stream: Option<UnixStream>,
    process: u32, // which opened it
    timeout: Duration,
    number: u32,
}

/// # Opening and closing
impl Client {
    /// Returns the options of an opening.
    pub fn builder() -> ClientBuilder {
        ClientBuilder {
            hello: Hello::default(),
            lease: None,
            timeout: DEFAULT_TIMEOUT,
        }
    }

    /// Opens the node of this path, with the options by default.
    ///
    /// # Errors
    ///
    /// Those of [`ClientBuilder::open`].
    pub fn open(path: impl AsRef<Path>) -> Result<Client, Error> {
        Client::builder().open(path)
    }

    /// Returns the number that the server assigned to this client.
    pub fn number(&self) -> u32 {
        self.number
    }

    /// Sets the time limit of a call and of the closing.
    pub fn set_timeout(&mut self, timeout: Duration) {
        self.timeout = timeout;
    }

    /// Ends the connection, and waits until the server has closed the client and released what it
    /// owned.
    pub fn close(mut self) -> Result<(), Error> {
        let deadline = Deadline::new(self.timeout)?;
        let Some(mut stream) = self.stream.take() else {
            return Ok(());
        };
        if self.is_forked() || stream.shutdown(Shutdown::Write).is_err() {
            return Ok(()); // this is only a copy, or the server had exited before
        }
        match receive(&mut stream, &mut [0], &deadline) {
            Ok(0) => Ok(()),
            Ok(_) => protocol("the server sent an answer without a request"),
            Err(error) if error.kind() == ErrorKind::TimedOut => Err(error.into()),
            Err(_) => Ok(()),
        }
    }

    /// Returns whether the client with this number is open. Only a root client may ask; each of
    /// its audits is a step.
    pub fn is_open(&mut self, client: u32) -> Result<bool, Error> {
        let client = u64::from(client);
        let mut skipped = 0;
        loop {
            let rows = self.audit(AuditKind::Client, skipped)?;
            // numbers rise, and clients that close meanwhile move those after them forward
            let begins_before = skipped == 0 || rows.first().is_some_and(|row| row.a < client);
            let ends_after =
                rows.len() < MOST_ROWS as usize || rows.last().is_some_and(|row| row.a > client);
            match rows.iter().any(|row| row.a == client) {
                true => return Ok(true),
                false if begins_before && ends_after => return Ok(false),
                false if begins_before => skipped += MOST_ROWS - 1,
                false => skipped = 0,
            }
        }
    }

    /// Waits until the server has closed the client with this number. Only a root client may ask.
    ///
    /// The server notices after a moment that a client was killed, and an opening before that
    /// finds what the client had.
    ///
    /// # Errors
    ///
    /// `Error::Io` with `TimedOut` if the client is still open at the end of the time limit. The
    /// connection then stays open.
    pub fn wait_until_closed(&mut self, client: u32) -> Result<(), Error> {
        let deadline = Deadline::new(self.timeout)?;
        let mut pause = Duration::from_micros(500);
        while self.is_open(client)? {
            thread::sleep(pause.min(deadline.left()?));
            pause = (2 * pause).min(Duration::from_millis(50));
        }
        Ok(())
    }

    /// Returns whether this is a child of the process that opened the client.
    fn is_forked(&self) -> bool {
        self.process != process::id()
    }

    /// Sends a frame, and reads the answer, which has this number, by its fields.
    fn ask<T>(
        &mut self,
        frame: Frame,
        expected: u16,
        read: fn(&mut Fields<'_>) -> Result<T, Error>,
    ) -> Result<T, Error> {
        if self.is_forked() {
            return Err(Error::Forked);
        }
        let bytes = frame.bytes()?;
        let deadline = Deadline::new(self.timeout)?;
        let Some(mut stream) = self.stream.take() else {
            let text = "the connection is closed";
            return Err(io::Error::new(ErrorKind::NotConnected, text).into());
        };
        let body = exchange(&mut stream, &bytes, &deadline)?;
        let mut fields = Fields { left: &body };
        let number = u16::from_le_bytes(fields.take()?);
        let answer = match number {
            answer::DENIED | answer::APART => Err(refusal(number == answer::APART, &mut fields)?),
            number if number == expected => Ok(read(&mut fields)?),
            number => protocol(format!(
                "the answer has the number {number:#x}, which is not the call's"
            ))?,
        };
        fields.end()?;
        self.stream = Some(stream); // a connection is kept if it answered as it should
        answer
    }

    fn done(&mut self, frame: Frame) -> Result<(), Error> {
        self.ask(frame, answer::DONE, |_| Ok(()))
    }

    fn number_of(&mut self, frame: Frame) -> Result<u64, Error> {
        self.ask(frame, answer::NUMBER, |fields| fields.u64())
    }

    /// Returns a number that is a u32 in each answer of the call.
    fn u32_of(&mut self, frame: Frame) -> Result<u32, Error> {
        self.ask(frame, answer::NUMBER, |fields| {
            match u32::try_from(fields.u64()?) {
                Ok(value) => Ok(value),
                Err(_) => protocol("an answer has a number that is out of range"),
            }
        })
    }

    fn buffer_of(&mut self, frame: Frame) -> Result<Buffer, Error> {
        self.ask(frame, answer::BUFFER, |fields| {
            Ok(Buffer {
                handle: fields.id()?,
                size: fields.u64()?,
            })
        })
    }

    fn ids_of<T: From<u32>>(&mut self, frame: Frame) -> Result<Vec<T>, Error> {
        self.ask(frame, answer::LIST, |fields| fields.ids(MOST_IDS))
    }
}

/// # The calls
///
/// Each call fails with [`Error::Denied`] if a rule denies it, and with [`Error::Fault`] for a fault
/// outside the rules. Both change nothing, neither in the server nor in the connection. The other
/// errors are those of [`Error`].
impl Client {
    /// Returns the version of the interface.
    pub fn version(&mut self) -> Result<Version, Error> {
        self.ask(Frame::new(call::VERSION), answer::VERSION, |fields| {
            Ok(Version {
                major: fields.u32()?,
                minor: fields.u32()?,
                patch: fields.u32()?,
            })
        })
    }

    /// Returns the client's magic.
    pub fn get_magic(&mut self) -> Result<u32, Error> {
        self.u32_of(Frame::new(call::GET_MAGIC))
    }

    /// Closes a handle.
    pub fn gem_close(&mut self, handle: BufferHandle) -> Result<(), Error> {
        self.done(Frame::new(call::GEM_CLOSE).u32(handle))
    }

    /// Returns the global name of a handle's object.
    pub fn gem_flink(&mut self, handle: BufferHandle) -> Result<u32, Error> {
        self.u32_of(Frame::new(call::GEM_FLINK).u32(handle))
    }

    /// Opens the object with this global name.
    pub fn gem_open(&mut self, name: u32) -> Result<Buffer, Error> {
        self.buffer_of(Frame::new(call::GEM_OPEN).u32(name))
    }

    /// Returns the value of a capability of [`cap`](super::cap).
    pub fn get_cap(&mut self, cap: u64) -> Result<u64, Error> {
        self.number_of(Frame::new(call::GET_CAP).u64(cap))
    }

    /// Sets a capability of [`client_cap`](super::client_cap).
    pub fn set_client_cap(&mut self, cap: u64, value: u64) -> Result<(), Error> {
        self.done(Frame::new(call::SET_CLIENT_CAP).u64(cap).u64(value))
    }

    /// Authenticates the client with this magic.
    pub fn auth_magic(&mut self, magic: u32) -> Result<(), Error> {
        self.done(Frame::new(call::AUTH_MAGIC).u32(magic))
    }

    /// Makes the client's master the device's.
    pub fn set_master(&mut self) -> Result<(), Error> {
        self.done(Frame::new(call::SET_MASTER))
    }

    /// Leaves the device without a master.
    pub fn drop_master(&mut self) -> Result<(), Error> {
        self.done(Frame::new(call::DROP_MASTER))
    }

    /// Returns a PRIME token of a handle's object.
    pub fn prime_export(&mut self, handle: BufferHandle) -> Result<u32, Error> {
        self.u32_of(Frame::new(call::PRIME_HANDLE_TO_FD).u32(handle))
    }

    /// Returns the buffer of a PRIME token.
    pub fn prime_import(&mut self, token: u32) -> Result<Buffer, Error> {
        self.buffer_of(Frame::new(call::PRIME_FD_TO_HANDLE).u32(token))
    }

    /// Creates a buffer of `size` bytes.
    pub fn buf_create(&mut self, size: u64) -> Result<Buffer, Error> {
        self.buffer_of(Frame::new(call::BUF_CREATE).u64(size))
    }

    /// Writes the stamp of a buffer.
    pub fn stamp_write(&mut self, handle: BufferHandle, stamp: u64) -> Result<(), Error> {
        self.done(Frame::new(call::STAMP_WRITE).u32(handle).u64(stamp))
    }

    /// Returns the stamp of a buffer.
    pub fn stamp_read(&mut self, handle: BufferHandle) -> Result<u64, Error> {
        self.number_of(Frame::new(call::STAMP_READ).u32(handle))
    }

    /// Closes a PRIME token.
    pub fn token_close(&mut self, token: u32) -> Result<(), Error> {
        self.done(Frame::new(call::TOKEN_CLOSE).u32(token))
    }

    /// Returns the first 64 handles that are not below `least`.
    pub fn list_handles(&mut self, least: u32) -> Result<Vec<BufferHandle>, Error> {
        self.ids_of(Frame::new(call::LIST_HANDLES).u32(least))
    }

    /// Returns up to 16 rows of a kind, after the first `skipped`. Only a root client may ask.
    pub fn audit(&mut self, kind: AuditKind, skipped: u32) -> Result<Vec<Row>, Error> {
        let frame = Frame::new(call::AUDIT).u32(kind.number()).u32(skipped);
        self.ask(frame, answer::AUDIT, |fields| fields.rows())
    }

    /// Returns the mode objects that the client sees.
    pub fn getresources(&mut self) -> Result<Resources, Error> {
        const MOST: u32 = MOST_LENGTH as u32; // these lists are bounded by their frame alone
        self.ask(
            Frame::new(call::MODE_GETRESOURCES),
            answer::RESOURCES,
            |fields| {
                Ok(Resources {
                    crtcs: fields.ids(MOST)?,
                    connectors: fields.ids(MOST)?,
                    encoders: fields.ids(MOST)?,
                    framebuffers: fields.ids(MOST)?,
                })
            },
        )
    }

    /// Returns the framebuffer that a CRTC shows.
    pub fn getcrtc(&mut self, crtc: CrtcId) -> Result<Option<FramebufferId>, Error> {
        self.u32_of(Frame::new(call::MODE_GETCRTC).u32(crtc))
            .map(unless_zero)
    }

    /// Shows a framebuffer on a CRTC; with none of both the CRTC becomes dark.
    pub fn setcrtc(
        &mut self,
        crtc: CrtcId,
        framebuffer: Option<FramebufferId>,
        connector: Option<ConnectorId>,
    ) -> Result<(), Error> {
        let frame = Frame::new(call::MODE_SETCRTC).u32(crtc);
        self.done(frame.u32(or_zero(framebuffer)).u32(or_zero(connector)))
    }

    /// Returns the mask of an encoder's possible CRTCs.
    pub fn getencoder(&mut self, encoder: EncoderId) -> Result<u32, Error> {
        self.u32_of(Frame::new(call::MODE_GETENCODER).u32(encoder))
    }

    /// Returns the encoder of a connector.
    pub fn getconnector(&mut self, connector: ConnectorId) -> Result<EncoderId, Error> {
        self.u32_of(Frame::new(call::MODE_GETCONNECTOR).u32(connector))
            .map(EncoderId)
    }

    /// Returns a framebuffer, with a new handle of its object.
    pub fn getfb(&mut self, framebuffer: FramebufferId) -> Result<Framebuffer, Error> {
        self.ask(
            Frame::new(call::MODE_GETFB).u32(framebuffer),
            answer::FRAMEBUFFER,
            |fields| {
                Ok(Framebuffer {
                    width: fields.u32()?,
                    height: fields.u32()?,
                    pitch: fields.u32()?,
                    bpp: fields.u32()?,
                    handle: unless_zero(fields.u32()?),
                })
            },
        )
    }

    /// Creates a framebuffer, and returns its id.
    pub fn addfb(
        &mut self,
        width: u32,
        height: u32,
        pitch: u32,
        bpp: u32,
        handle: BufferHandle,
    ) -> Result<FramebufferId, Error> {
        let shape = [width, height, pitch, bpp].into_iter();
        let frame = shape.fold(Frame::new(call::MODE_ADDFB), Frame::u32);
        self.u32_of(frame.u32(handle)).map(FramebufferId)
    }

    /// Removes a framebuffer.
    pub fn rmfb(&mut self, framebuffer: FramebufferId) -> Result<(), Error> {
        self.done(Frame::new(call::MODE_RMFB).u32(framebuffer))
    }

    /// Creates a dumb buffer for pixels of `bpp` bits.
    pub fn create_dumb(&mut self, width: u32, height: u32, bpp: u32) -> Result<Dumb, Error> {
        let frame = Frame::new(call::MODE_CREATE_DUMB);
        self.ask(
            frame.u32(width).u32(height).u32(bpp),
            answer::DUMB,
            |fields| {
                Ok(Dumb {
                    handle: fields.id()?,
                    pitch: fields.u32()?,
                    size: fields.u64()?,
                })
            },
        )
    }

    /// Closes the handle of a dumb buffer.
    pub fn destroy_dumb(&mut self, handle: BufferHandle) -> Result<(), Error> {
        self.done(Frame::new(call::MODE_DESTROY_DUMB).u32(handle))
    }

    /// Returns the planes that the client sees.
    pub fn getplaneresources(&mut self) -> Result<Vec<PlaneId>, Error> {
        self.ids_of(Frame::new(call::MODE_GETPLANERESOURCES))
    }

    /// Returns what a plane shows, and on which CRTCs it may.
    pub fn getplane(&mut self, plane: PlaneId) -> Result<Plane, Error> {
        let frame = Frame::new(call::MODE_GETPLANE).u32(plane);
        self.ask(frame, answer::PLANE, |fields| {
            Ok(Plane {
                framebuffer: unless_zero(fields.u32()?),
                possible_crtcs: fields.u32()?,
            })
        })
    }

    /// Shows a framebuffer on a plane; with none of both the plane becomes dark.
    pub fn setplane(
        &mut self,
        plane: PlaneId,
        crtc: Option<CrtcId>,
        framebuffer: Option<FramebufferId>,
    ) -> Result<(), Error> {
        let frame = Frame::new(call::MODE_SETPLANE).u32(plane);
        self.done(frame.u32(or_zero(crtc)).u32(or_zero(framebuffer)))
    }

    /// Leases these mode objects to a new lessee.
    pub fn create_lease(&mut self, ids: &[ObjectId]) -> Result<Lease, Error> {
        let count = u32::try_from(ids.len()).unwrap_or(u32::MAX);
        let frame = Frame::new(call::MODE_CREATE_LEASE).u32(count);
        let frame = ids.iter().copied().fold(frame, Frame::u32);
        self.ask(frame, answer::LEASE, |fields| {
            Ok(Lease {
                lessee_id: fields.u32()?,
                token: fields.u32()?,
            })
        })
    }

    /// Returns the ids of the lessees of the client's master.
    pub fn list_lessees(&mut self) -> Result<Vec<u32>, Error> {
        self.ids_of(Frame::new(call::MODE_LIST_LESSEES))
    }

    /// Returns the mode objects in the client's lease.
    pub fn get_lease(&mut self) -> Result<Vec<ObjectId>, Error> {
        self.ids_of(Frame::new(call::MODE_GET_LEASE))
    }

    /// Revokes the lease of a lessee.
    pub fn revoke_lease(&mut self, lessee_id: u32) -> Result<(), Error> {
        self.done(Frame::new(call::MODE_REVOKE_LEASE).u32(lessee_id))
    }
}
