//! A server for a test, on Linux.
//!
//! ```
//! use zirkoshe::{testing::Server, Client};
//!
//! # fn main() -> Result<(), Box<dyn std::error::Error>> {
//! let server = Server::builder().cards(1).start()?;
//! let mut client = Client::open(server.card())?;
//! client.create_dumb(64, 64, 32)?;
//! client.close()?;
//! assert_eq!(server.end()?, "device 0 0 0 3\n");
//! # Ok(())
//! # }
//! ```
//!
//! With [`ServerBuilder::control`] a test plans faults while the server runs: memory that is
//! refused, answers that are late, and connections that break.
//!
//! ```
//! use zirkoshe::{testing::Server, Client, Error, Fault};
//!
//! # fn main() -> Result<(), Box<dyn std::error::Error>> {
//! let server = Server::builder().control().start()?;
//! let mut client = Client::open(server.card())?;
//! server.fail("create_dumb", 2)?;
//! client.create_dumb(64, 64, 32)?;
//! let refused = client.create_dumb(64, 64, 32);
//! assert!(matches!(refused, Err(Error::Fault(Fault::NoMemory))));
//! client.create_dumb(64, 64, 32)?;
//! # Ok(())
//! # }
//! ```

use std::collections::HashSet;
use std::env;
use std::ffi::{OsStr, OsString};
use std::fs::{self, DirBuilder, File};
use std::io::{self, ErrorKind, Read};
use std::os::unix::ffi::{OsStrExt, OsStringExt};
use std::os::unix::fs::DirBuilderExt;
use std::path::{Path, PathBuf};
use std::process::{self, Child, Command, Stdio};
use std::sync::atomic::{AtomicUsize, Ordering};
use std::thread;
use std::time::{Duration, Instant};

use super::control;

/// The classes of sockets.
const CLASSES: [&str; 3] = ["card", "render", "root"];
/// How many connections a socket accepts if only others are counted.
const COUNT: u32 = 16;
/// How long a server may take to start, and to end: at its end it writes its journal.
const MOST_WAIT: Duration = Duration::from_secs(60);
/// The greatest length of a socket's path.
const MOST_PATH: usize = 107;
/// The flag of a listening socket in /proc/net/unix.
const LISTENS: u32 = 0x10000;

/// The options of a server.
#[derive(Debug, Clone)]
#[must_use]
pub struct ServerBuilder {
    program: Option<PathBuf>,
    /// Without counts, a server accepts any number of connections.
    counts: Option<[u32; 3]>,
    options: Vec<(&'static str, OsString)>,
    /// Whether the server has a control socket.
    control: bool,
}

impl ServerBuilder {
    /// Sets the program. By default it is that of `DRM_SERVER_PROGRAM`, or the one that the
    /// `drm_server` of this checkout or archive, or of the path, would run.
    pub fn program(mut self, program: impl Into<PathBuf>) -> ServerBuilder {
        self.program = Some(program.into());
        self
    }

    fn count(mut self, place: usize, count: u32) -> ServerBuilder {
        self.counts.get_or_insert([COUNT; 3])[place] = count;
        self
    }

    /// Sets how many connections the card socket accepts in total, 0 to 64. The other sockets
    /// accept 16 then, unless they are set too.
    pub fn cards(self, count: u32) -> ServerBuilder {
        self.count(0, count)
    }

    /// Sets how many connections the render socket accepts in total, as [`ServerBuilder::cards`]
    /// does.
    pub fn renders(self, count: u32) -> ServerBuilder {
        self.count(1, count)
    }

    /// Sets how many connections the root socket accepts in total, as [`ServerBuilder::cards`]
    /// does.
    pub fn roots(self, count: u32) -> ServerBuilder {
        self.count(2, count)
    }

    /// Sets the file of the topology.
    pub fn topology(mut self, path: impl AsRef<Path>) -> ServerBuilder {
        self.options.push(("topology", path.as_ref().into()));
        self
    }

    /// Sets the eight numbers of a script's limits line.
    pub fn limits(mut self, limits: &str) -> ServerBuilder {
        self.options.push(("limits", limits.into()));
        self
    }

    /// Sets the file into which the server writes the requests and answers at its end, as a
    /// script for `drm_server check` and `drm_server explain`.
    pub fn journal(mut self, path: impl AsRef<Path>) -> ServerBuilder {
        self.options.push(("journal", path.as_ref().into()));
        self
    }

    /// Lets the server take plans of faults: those of [`Server::fail`], [`Server::stall`] and
    /// [`Server::break_connection`].
    pub fn control(mut self) -> ServerBuilder {
        self.control = true;
        self
    }

    /// Starts the server, and waits until it listens.
    ///
    /// # Errors
    ///
    /// `NotFound` if there is no program, and other errors if the server does not start. Their
    /// text says why.
    pub fn start(self) -> io::Result<Server> {
        let program = self.program.clone().map_or_else(find_program, Ok)?;
        let mut server = Server::new(make_folder()?, self.control);
        let longest = server.control.as_deref().unwrap_or(server.render());
        if longest.as_os_str().len() > MOST_PATH {
            let text = format!(
                "the path {} is too long for sockets: set TMPDIR to a shorter path",
                server.folder.display()
            );
            return Err(io::Error::new(ErrorKind::InvalidInput, text));
        }
        let mut command = Command::new(program);
        command.arg("serve");
        for (path, class) in server.paths.iter().zip(CLASSES) {
            command.arg(format!("--{class}")).arg(path);
        }
        match self.counts {
            None => {
                command.arg("--until-ended");
            }
            Some(counts) => {
                command.arg("--until-input-ends");
                for (class, count) in CLASSES.iter().zip(counts) {
                    command.args([format!("--{class}s"), count.to_string()]);
                }
            }
        }
        for (name, value) in &self.options {
            command.arg(format!("--{name}")).arg(value);
        }
        if let Some(path) = &server.control {
            command.arg("--control").arg(path);
        }
        let log = File::create(server.folder.join("log"))?;
        command
            .stdin(Stdio::piped())
            .stdout(Stdio::piped())
            .stderr(log);
        server.process = Some(command.spawn()?);
        server.wait_until_it_listens(self.counts.unwrap_or([COUNT; 3]))?;
        Ok(server)
    }
}

/// A running server with its own empty device, which ends when this is dropped.
#[derive(Debug)]
pub struct Server {
    folder: PathBuf,
    paths: [PathBuf; 3],
    /// The path of the control socket, if there is one.
    control: Option<PathBuf>,
    process: Option<Child>,
}

impl Server {
    /// Returns the options of a server.
    pub fn builder() -> ServerBuilder {
        ServerBuilder {
            program: None,
            counts: None,
            options: Vec::new(),
            control: false,
        }
    }

    /// Starts a server with the options by default: it accepts any number of connections, at most
    /// 64 at once on each socket.
    ///
    /// # Errors
    ///
    /// Those of [`ServerBuilder::start`].
    pub fn start() -> io::Result<Server> {
        Server::builder().start()
    }

    /// Returns the path of the card socket.
    pub fn card(&self) -> &Path {
        &self.paths[0]
    }

    /// Returns the path of the render socket.
    pub fn render(&self) -> &Path {
        &self.paths[1]
    }

    /// Returns the path of the root socket.
    pub fn root(&self) -> &Path {
        &self.paths[2]
    }

    /// Returns the variables of `tools/with-server`, for a program under test.
    pub fn environment(&self) -> [(&'static str, &Path); 3] {
        [
            ("DRM_SERVER_CARD", self.card()),
            ("DRM_SERVER_RENDER", self.render()),
            ("DRM_SERVER_ROOT", self.root()),
        ]
    }

    /// Refuses memory to the `nth` call from now that would add a row, from 1.
    ///
    /// `call` is its word in a script, or `open` for openings. The call is answered with
    /// [`Fault::NoMemory`](super::Fault::NoMemory) and changes nothing. Denied calls, and calls
    /// that add no row, are not counted. The plan replaces an earlier one for this call.
    ///
    /// # Errors
    ///
    /// `InvalidInput` with the server's reason if it refuses the plan, `Unsupported` if it was
    /// started without [`ServerBuilder::control`], and other errors if it does not answer.
    pub fn fail(&self, call: &str, nth: u16) -> io::Result<()> {
        self.plan(&format!("fail {call}:{nth}=memory")).map(drop)
    }

    /// Delays the answer to the `nth` call from now, from 1, by 1 millisecond to 60 seconds.
    ///
    /// `call` is its word in a script, or `open` for openings. The call itself is carried out at
    /// once, and other clients are answered meanwhile. `delay` is rounded up to milliseconds. The
    /// plan replaces an earlier one for this call.
    ///
    /// # Errors
    ///
    /// Those of [`Server::fail`].
    pub fn stall(&self, call: &str, nth: u16, delay: Duration) -> io::Result<()> {
        let milliseconds = delay.as_nanos().div_ceil(1_000_000);
        self.plan(&format!("stall {call}:{nth}={milliseconds}"))
            .map(drop)
    }

    /// Closes the connection of a client after its `nth` request from now, from 1.
    ///
    /// That request is carried out and not answered. `client` is the
    /// [`number`](super::Client::number) of the client. The plan replaces an earlier one for this
    /// client.
    ///
    /// # Errors
    ///
    /// Those of [`Server::fail`].
    pub fn break_connection(&self, client: u32, nth: u16) -> io::Result<()> {
        self.plan(&format!("break {client}:{nth}")).map(drop)
    }

    /// Forgets all faults that are planned.
    ///
    /// # Errors
    ///
    /// Those of [`Server::fail`].
    pub fn clear_faults(&self) -> io::Result<()> {
        self.plan("clear").map(drop)
    }

    /// Returns the faults to come, each as a line with the count that is left, such as
    /// `fail create_dumb:2=memory`.
    ///
    /// # Errors
    ///
    /// Those of [`Server::fail`].
    pub fn planned_faults(&self) -> io::Result<Vec<String>> {
        self.plan("list")
    }

    /// Sends a line to the control socket, and returns the lines before its `ok`.
    fn plan(&self, line: &str) -> io::Result<Vec<String>> {
        match &self.control {
            Some(path) => control::ask(path, line),
            None => Err(io::Error::new(
                ErrorKind::Unsupported,
                "the server takes no plans of faults: start it with Server::builder().control()",
            )),
        }
    }

    /// Ends the server, and returns the listing of what the device still held.
    ///
    /// # Errors
    ///
    /// If the server's status is not 0, or if it had to be killed.
    pub fn end(mut self) -> io::Result<String> {
        let Some(mut process) = self.process.take() else {
            return Ok(String::new());
        };
        let stopped = stop(&mut process)?;
        let mut listing = String::new();
        if let Some(mut output) = process.stdout.take() {
            output.read_to_string(&mut listing)?;
        }
        match stopped.success() {
            true => Ok(listing),
            false => Err(self.failed(&format!("the server ended with {stopped}"))),
        }
    }

    fn new(folder: PathBuf, has_control: bool) -> Server {
        let paths = CLASSES.map(|class| folder.join(class));
        Server {
            control: has_control.then(|| folder.join("control")),
            folder,
            paths,
            process: None,
        }
    }

    /// Waits for the server, and uses up none of its connections.
    fn wait_until_it_listens(&mut self, counts: [u32; 3]) -> io::Result<()> {
        let until = Instant::now() + MOST_WAIT;
        let served = self
            .paths
            .iter()
            .zip(counts)
            .filter(|&(_, count)| count > 0);
        let paths = served.map(|(path, _)| path).chain(&self.control);
        let expected: Vec<PathBuf> = paths.cloned().collect();
        loop {
            let listening = listening()?;
            if expected.iter().all(|path| listening.contains(path)) {
                return Ok(());
            }
            if let Some(status) = self
                .process
                .as_mut()
                .and_then(|child| child.try_wait().ok()?)
            {
                let text = format!("the server ended before it listened, with {status}");
                return Err(self.failed(&text));
            }
            if Instant::now() > until {
                return Err(self.failed("the server didn't listen in time"));
            }
            thread::sleep(Duration::from_millis(5));
        }
    }

    /// Returns an error with the server's log.
    fn failed(&self, text: &str) -> io::Error {
        let log = fs::read_to_string(self.folder.join("log")).unwrap_or_default();
        match log.trim() {
            "" => io::Error::other(text),
            log => io::Error::other(format!("{text}: {log}")),
        }
    }
}

impl Drop for Server {
    fn drop(&mut self) {
        if let Some(mut process) = self.process.take() {
            let _ = stop(&mut process);
        }
        let _ = fs::remove_dir_all(&self.folder);
    }
}

/// Ends a server by the end of its standard input, and kills it if it takes too long.
fn stop(process: &mut Child) -> io::Result<process::ExitStatus> {
    drop(process.stdin.take());
    let until = Instant::now() + MOST_WAIT;
    loop {
        if let Some(status) = process.try_wait()? {
            return Ok(status);
        }
        if Instant::now() > until {
            process.kill()?;
            return process.wait();
        }
        thread::sleep(Duration::from_millis(1));
    }
}

/// Creates a folder that no other user can read.
fn make_folder() -> io::Result<PathBuf> {
    static MADE: AtomicUsize = AtomicUsize::new(0);
    loop {
        let number = MADE.fetch_add(1, Ordering::Relaxed);
        let name = format!("drm-server-{}-{number}", process::id());
        let folder = env::temp_dir().join(name);
        match DirBuilder::new().mode(0o700).create(&folder) {
            Err(error) if error.kind() == ErrorKind::AlreadyExists => continue,
            created => return created.map(|()| folder),
        }
    }
}

/// Returns the program of the server.
fn find_program() -> io::Result<PathBuf> {
    if let Some(named) = env::var_os("DRM_SERVER_PROGRAM").filter(|named| !named.is_empty()) {
        return Ok(named.into());
    }
    let own = option_env!("CARGO_MANIFEST_DIR")
        .map(|folder| Path::new(folder).join("../../drm_server"))
        .filter(|script| script.is_file());
    let script = own.unwrap_or_else(|| "drm_server".into());
    let mut command = Command::new(&script);
    command.arg("--program").stdin(Stdio::null());
    let asked = command.stderr(Stdio::inherit()).output().map_err(|error| {
        let text = format!(
            "can't run {}: {error}; set DRM_SERVER_PROGRAM to the server's program",
            script.display()
        );
        io::Error::new(error.kind(), text)
    })?;
    if !asked.status.success() {
        let text = format!("{} --program ended with {}", script.display(), asked.status);
        return Err(io::Error::new(ErrorKind::NotFound, text));
    }
    let line = asked.stdout.strip_suffix(b"\n").unwrap_or(&asked.stdout);
    Ok(OsString::from_vec(line.to_vec()).into())
}

/// Returns the paths of the Unix sockets that listen. The file of a socket exists a moment before
/// the socket listens.
fn listening() -> io::Result<HashSet<PathBuf>> {
    let table = fs::read("/proc/net/unix")?;
    Ok(table
        .split(|&byte| byte == b'\n')
        .filter_map(path_of)
        .collect())
}

/// Returns the path of a row of /proc/net/unix, if the socket listens.
fn path_of(row: &[u8]) -> Option<PathBuf> {
    let mut words = row
        .split(|&byte| byte == b' ')
        .filter(|word| !word.is_empty());
    let flags = std::str::from_utf8(words.nth(3)?).ok()?;
    let path = words.nth(3)?;
    let listens = u32::from_str_radix(flags, 16).ok()? & LISTENS != 0;
    listens.then(|| PathBuf::from(OsStr::from_bytes(path)))
}
