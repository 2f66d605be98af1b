//! Sessions of the Rust client, each call with its answer in a script's words: over card, render, root and a lease, where each call
//! is made once, and over the card alone by both hellos.
#[path = "../clients/rust/src/lib.rs"]
mod zirkoshe;

mod common;

use std::fmt::Display;
use std::process::ExitCode;
use std::time::Duration;
use zirkoshe::{
    AuditKind, Buffer, BufferHandle, Client, ClientBuilder, ConnectorId, CrtcId, Dumb, EncoderId,
    Error, Framebuffer, FramebufferId, Hello, Lease, ObjectId, Plane, PlaneId, Resources, Row,
    Version,
};

/// An answer in a script's words.
trait Words {
    fn words(&self) -> String;
}

impl Words for () {
    fn words(&self) -> String {
        "done".into()
    }
}

impl Words for u32 {
    fn words(&self) -> String {
        format!("number {self}")
    }
}

impl Words for EncoderId {
    fn words(&self) -> String {
        format!("number {self}")
    }
}

impl Words for FramebufferId {
    fn words(&self) -> String {
        format!("number {self}")
    }
}

impl Words for Option<FramebufferId> {
    fn words(&self) -> String {
        format!("number {}", number(self))
    }
}

impl Words for u64 {
    fn words(&self) -> String {
        format!("number {self}")
    }
}

impl Words for Version {
    fn words(&self) -> String {
        format!("version {} {} {}", self.major, self.minor, self.patch)
    }
}

impl Words for Dumb {
    fn words(&self) -> String {
        format!("dumb {} {} {}", self.handle, self.pitch, self.size)
    }
}

impl Words for Buffer {
    fn words(&self) -> String {
        format!("buffer {} {}", self.handle, self.size)
    }
}

impl Words for Plane {
    fn words(&self) -> String {
        format!(
            "plane {} {}",
            number(&self.framebuffer),
            self.possible_crtcs
        )
    }
}

impl Words for Framebuffer {
    fn words(&self) -> String {
        format!(
            "framebuffer {} {} {} {} {}",
            self.width,
            self.height,
            self.pitch,
            self.bpp,
            number(&self.handle)
        )
    }
}

impl Words for Lease {
    fn words(&self) -> String {
        format!("lease {} {}", self.lessee_id, self.token)
    }
}

fn number<T: Display>(id: &Option<T>) -> String {
    id.as_ref().map_or("0".into(), T::to_string)
}

fn list<T: Display>(ids: &[T]) -> String {
    let words: Vec<String> = ids.iter().map(T::to_string).collect();
    if words.is_empty() {
        "-".into()
    } else {
        words.join(",")
    }
}

macro_rules! lists {
    ($($name:ident),*) => {$(
        impl Words for Vec<$name> {
            fn words(&self) -> String {
                format!("list {}", list(self))
            }
        }
    )*};
}

lists!(u32, BufferHandle, ObjectId, PlaneId);

impl Words for Resources {
    fn words(&self) -> String {
        let (crtcs, connectors) = (list(&self.crtcs), list(&self.connectors));
        let (encoders, framebuffers) = (list(&self.encoders), list(&self.framebuffers));
        format!(
            "crtcs {crtcs} connectors {connectors} encoders {encoders} framebuffers {framebuffers}"
        )
    }
}

impl Words for Vec<Row> {
    fn words(&self) -> String {
        let rows = self
            .iter()
            .map(|row| format!(" | {} {} {} {}", row.a, row.b, row.c, row.d));
        format!("rows {}{}", self.len(), rows.collect::<String>())
    }
}

fn tell<T: Words>(answer: Result<T, Error>) {
    match answer {
        Ok(answer) => println!("{}", answer.words()),
        Err(refusal) => println!("{refusal}"),
    }
}

/// A client of a hello of version 1, as a script opens it.
fn old() -> ClientBuilder {
    Client::builder().hello(Hello::Version1)
}

fn opened(builder: ClientBuilder, path: &str) -> Result<Client, Error> {
    let client = builder.open(path)?;
    println!("client {}", client.number());
    Ok(client)
}

fn make_buffers(owner: &mut Client) {
    tell(owner.version());
    tell(owner.get_cap(5));
    tell(owner.set_client_cap(2, 1));
    tell(owner.create_dumb(64, 64, 32));
    tell(owner.buf_create(5000));
    tell(owner.list_handles(0));
    tell(owner.gem_close(BufferHandle(2)));
}

fn show(owner: &mut Client) {
    tell(owner.addfb(64, 64, 256, 32, BufferHandle(1)));
    tell(owner.setcrtc(CrtcId(1), Some(FramebufferId(9)), Some(ConnectorId(7))));
    tell(owner.setplane(PlaneId(3), Some(CrtcId(1)), Some(FramebufferId(9))));
    tell(owner.getcrtc(CrtcId(1)));
    tell(owner.getplane(PlaneId(3)));
    tell(owner.getfb(FramebufferId(9)));
    tell(owner.destroy_dumb(BufferHandle(2)));
    tell(owner.getresources());
    tell(owner.getplaneresources());
    tell(owner.getencoder(EncoderId(6)));
    tell(owner.getconnector(ConnectorId(7)));
    tell(owner.gem_flink(BufferHandle(1)));
    tell(owner.prime_export(BufferHandle(1)));
}

fn session(card: &str, render: &str, root: &str) -> Result<(), Error> {
    let mut owner = opened(old(), card)?;
    make_buffers(&mut owner);
    show(&mut owner);
    let mut render = opened(old(), render)?;
    tell(render.prime_import(1));
    tell(render.stamp_write(BufferHandle(1), 77));
    tell(owner.stamp_read(BufferHandle(1)));
    tell(render.create_dumb(64, 64, 32));
    let mut root = opened(old(), root)?;
    tell(root.get_magic());
    tell(owner.auth_magic(1));
    tell(owner.auth_magic(1));
    tell(root.gem_open(1));
    tell(root.set_master());
    tell(owner.create_lease(&[2, 4, 8].map(ObjectId)));
    let mut lessee = opened(old().lease(1), card)?;
    tell(old().lease(1).open(card).map(|_| ()));
    tell(lessee.getresources());
    tell(lessee.setcrtc(CrtcId(1), Some(FramebufferId(9)), Some(ConnectorId(7))));
    tell(lessee.get_lease());
    tell(owner.create_lease(&[2, 3, 8].map(ObjectId)));
    tell(owner.list_lessees());
    tell(root.audit(AuditKind::Grant, 0));
    tell(owner.audit(AuditKind::Grant, 0));
    tell(owner.revoke_lease(1));
    tell(lessee.get_lease());
    tell(owner.token_close(1));
    tell(render.prime_import(1));
    tell(owner.rmfb(FramebufferId(9)));
    tell(owner.drop_master());
    tell(owner.set_master());
    lessee.close()?;
    render.close()?;
    root.close()?;
    owner.close()
}

fn see_planes(client: &mut Client) {
    tell(client.getplaneresources());
    tell(client.getplane(PlaneId(3)));
}

fn switch_planes(client: &mut Client, is_on: u64) {
    tell(client.set_client_cap(2, is_on));
    see_planes(client);
}

/// A client of each hello on one server.
fn planes_session(card: &str) -> Result<(), Error> {
    let mut old = opened(old(), card)?;
    let mut new = opened(Client::builder(), card)?;
    see_planes(&mut old);
    see_planes(&mut new);
    switch_planes(&mut new, 1);
    switch_planes(&mut old, 0);
    tell(old.create_lease(&[1, 7].map(ObjectId)));
    let mut lessee = opened(Client::builder().lease(1), card)?;
    tell(lessee.get_lease());
    see_planes(&mut lessee);
    switch_planes(&mut lessee, 1);
    old.close()?;
    new.close()?;
    lessee.close()
}

/// A connection with this time limit in milliseconds.
fn try_opening(path: &str, timeout: &str) -> Result<(), Error> {
    opened(
        Client::builder().timeout(Duration::from_millis(timeout.parse().unwrap_or(0))),
        path,
    )?
    .close()
}

fn main() -> ExitCode {
    common::run(|words| match words {
        [card] => planes_session(card),
        [path, timeout] => try_opening(path, timeout),
        [card, render, root] => session(card, render, root),
        _ => Err(Error::Protocol("a wrong command line".into())),
    })
}
