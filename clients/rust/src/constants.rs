//! The numbers of the server's protocol. Written by tools/constants from the sources of the server.

use std::fmt;

pub(super) const HELLO: u16 = 0x0100;
pub(super) const LEAST_LENGTH: usize = 2;
pub(super) const MOST_LENGTH: usize = 1024;
pub(super) const MOST_IDS: u32 = 64;
pub(super) const MOST_ROWS: u32 = 16;

/// A rule that denies a request.
#[derive(Debug, Clone, Copy, PartialEq, Eq, PartialOrd, Ord, Hash)]
#[non_exhaustive]
#[repr(u32)]
pub enum Rule {
    /// No call has the number.
    Unknown = 1,
    /// The fields do not match the layout of the call.
    Layout = 2,
    /// The client is not open.
    NoClient = 3,
    /// The call requires root, and the caller is not root.
    RootOnly = 11,
    /// The call requires an authenticated or a render client.
    Auth = 12,
    /// The call requires a caller that is current.
    Master = 13,
    /// Render clients may not make the call.
    RenderAllow = 14,
    /// The caller does not hold the handle.
    NoHandle = 21,
    /// The caller does not hold the handle to close.
    NoHandleToClose = 22,
    /// No object has the name.
    NoName = 23,
    /// No open PRIME token has the number, or another client exported the token to close.
    NoToken = 24,
    /// The caller's master has no such magic, or the magic was used.
    NoMagic = 25,
    /// The caller was never a master and is not root.
    MasterPerm = 26,
    /// The device has a master.
    MasterBusy = 27,
    /// The caller is not current.
    NotCurrent = 28,
    /// The caller's master is a lessee.
    IsLessee = 29,
    /// The mode object does not exist, or the caller does not see it.
    NoModeObject = 30,
    /// Encoders and framebuffers cannot be leased.
    NotLeasable = 31,
    /// An id occurs twice in the lease.
    Repeated = 32,
    /// The lease has no CRTC, no connector or no plane.
    LeaseShape = 33,
    /// A direct lessee already has the object.
    LeasedOut = 34,
    /// A lessee at depth 8 cannot create a lease.
    SubLease = 35,
    /// No lessee of the owner has the id.
    NoLessee = 36,
    /// The lessee belongs to another master.
    NotYourLessee = 37,
    /// The framebuffer does not exist, or the caller may not remove it.
    NoFb = 38,
    /// The shape or size is out of range.
    BadSize = 39,
    /// The CRTC cannot drive the connector or plane, or only one of framebuffer and connector is
    /// not 0.
    BadRoute = 40,
    /// The capability does not exist.
    BadCap = 41,
    /// No open lease token has the number.
    NoLeaseToken = 42,
    /// The limit of what the call would create is reached.
    Full = 43,
}

impl Rule {
    /// Returns the variant with this number.
    pub fn from_number(number: u32) -> Option<Rule> {
        match number {
            1 => Some(Rule::Unknown),
            2 => Some(Rule::Layout),
            3 => Some(Rule::NoClient),
            11 => Some(Rule::RootOnly),
            12 => Some(Rule::Auth),
            13 => Some(Rule::Master),
            14 => Some(Rule::RenderAllow),
            21 => Some(Rule::NoHandle),
            22 => Some(Rule::NoHandleToClose),
            23 => Some(Rule::NoName),
            24 => Some(Rule::NoToken),
            25 => Some(Rule::NoMagic),
            26 => Some(Rule::MasterPerm),
            27 => Some(Rule::MasterBusy),
            28 => Some(Rule::NotCurrent),
            29 => Some(Rule::IsLessee),
            30 => Some(Rule::NoModeObject),
            31 => Some(Rule::NotLeasable),
            32 => Some(Rule::Repeated),
            33 => Some(Rule::LeaseShape),
            34 => Some(Rule::LeasedOut),
            35 => Some(Rule::SubLease),
            36 => Some(Rule::NoLessee),
            37 => Some(Rule::NotYourLessee),
            38 => Some(Rule::NoFb),
            39 => Some(Rule::BadSize),
            40 => Some(Rule::BadRoute),
            41 => Some(Rule::BadCap),
            42 => Some(Rule::NoLeaseToken),
            43 => Some(Rule::Full),
            _ => None,
        }
    }

    /// Returns the number.
    pub fn number(self) -> u32 {
        self as u32
    }
}

impl Rule {
    /// Returns the name, as scripts have it.
    pub fn name(self) -> &'static str {
        match self {
            Rule::Unknown => "Unknown",
            Rule::Layout => "Layout",
            Rule::NoClient => "NoClient",
            Rule::RootOnly => "RootOnly",
            Rule::Auth => "Auth",
            Rule::Master => "Master",
            Rule::RenderAllow => "RenderAllow",
            Rule::NoHandle => "NoHandle",
            Rule::NoHandleToClose => "NoHandleToClose",
            Rule::NoName => "NoName",
            Rule::NoToken => "NoToken",
            Rule::NoMagic => "NoMagic",
            Rule::MasterPerm => "MasterPerm",
            Rule::MasterBusy => "MasterBusy",
            Rule::NotCurrent => "NotCurrent",
            Rule::IsLessee => "IsLessee",
            Rule::NoModeObject => "NoModeObject",
            Rule::NotLeasable => "NotLeasable",
            Rule::Repeated => "Repeated",
            Rule::LeaseShape => "LeaseShape",
            Rule::LeasedOut => "LeasedOut",
            Rule::SubLease => "SubLease",
            Rule::NoLessee => "NoLessee",
            Rule::NotYourLessee => "NotYourLessee",
            Rule::NoFb => "NoFb",
            Rule::BadSize => "BadSize",
            Rule::BadRoute => "BadRoute",
            Rule::BadCap => "BadCap",
            Rule::NoLeaseToken => "NoLeaseToken",
            Rule::Full => "Full",
        }
    }

    /// Returns the error number.
    pub fn errno(self) -> i32 {
        match self {
            Rule::Unknown => errno::EINVAL,
            Rule::Layout => errno::EINVAL,
            Rule::NoClient => errno::EINVAL,
            Rule::RootOnly => errno::EACCES,
            Rule::Auth => errno::EACCES,
            Rule::Master => errno::EACCES,
            Rule::RenderAllow => errno::EACCES,
            Rule::NoHandle => errno::ENOENT,
            Rule::NoHandleToClose => errno::EINVAL,
            Rule::NoName => errno::ENOENT,
            Rule::NoToken => errno::ENOENT,
            Rule::NoMagic => errno::EINVAL,
            Rule::MasterPerm => errno::EACCES,
            Rule::MasterBusy => errno::EBUSY,
            Rule::NotCurrent => errno::EINVAL,
            Rule::IsLessee => errno::EINVAL,
            Rule::NoModeObject => errno::ENOENT,
            Rule::NotLeasable => errno::EINVAL,
            Rule::Repeated => errno::EINVAL,
            Rule::LeaseShape => errno::EINVAL,
            Rule::LeasedOut => errno::EBUSY,
            Rule::SubLease => errno::EINVAL,
            Rule::NoLessee => errno::ENOENT,
            Rule::NotYourLessee => errno::EACCES,
            Rule::NoFb => errno::ENOENT,
            Rule::BadSize => errno::EINVAL,
            Rule::BadRoute => errno::EINVAL,
            Rule::BadCap => errno::EINVAL,
            Rule::NoLeaseToken => errno::ENOENT,
            Rule::Full => errno::ENOSPC,
        }
    }
}

impl fmt::Display for Rule {
    fn fmt(&self, out: &mut fmt::Formatter<'_>) -> fmt::Result {
        out.write_str(self.name())
    }
}

/// A fault outside the rules.
#[derive(Debug, Clone, Copy, PartialEq, Eq, PartialOrd, Ord, Hash)]
#[non_exhaustive]
#[repr(u32)]
pub enum Fault {
    /// The journal has no room for the step. The rest of its room is reserved for closings.
    JournalFull = 50,
    /// Memory for a new row was refused.
    NoMemory = 51,
    /// The ticket counter is exhausted: no ticket is left for another turn of threads.
    Worn = 52,
}

impl Fault {
    /// Returns the variant with this number.
    pub fn from_number(number: u32) -> Option<Fault> {
        match number {
            50 => Some(Fault::JournalFull),
            51 => Some(Fault::NoMemory),
            52 => Some(Fault::Worn),
            _ => None,
        }
    }

    /// Returns the number.
    pub fn number(self) -> u32 {
        self as u32
    }
}

impl Fault {
    /// Returns the name, as scripts have it.
    pub fn name(self) -> &'static str {
        match self {
            Fault::JournalFull => "JournalFull",
            Fault::NoMemory => "NoMemory",
            Fault::Worn => "Worn",
        }
    }

    /// Returns the error number.
    pub fn errno(self) -> i32 {
        match self {
            Fault::JournalFull => errno::ENOSPC,
            Fault::NoMemory => errno::ENOMEM,
            Fault::Worn => errno::ENOSPC,
        }
    }
}

impl fmt::Display for Fault {
    fn fmt(&self, out: &mut fmt::Formatter<'_>) -> fmt::Result {
        out.write_str(self.name())
    }
}

/// A kind of rows of an audit, with its `a`, `b`, `c` and `d`.
#[derive(Debug, Clone, Copy, PartialEq, Eq, PartialOrd, Ord, Hash)]
#[non_exhaustive]
#[repr(u32)]
pub enum AuditKind {
    /// Open clients: client, flags, master, magic.
    Client = 1,
    /// Masters: master, lessor, lessee id, open lease token.
    Master = 2,
    /// Objects: object, size in bytes, handles, tokens and framebuffers.
    Object = 3,
    /// Flink names: name, object.
    Name = 4,
    /// PRIME tokens: token, exporter, object.
    Token = 5,
    /// Handles: client, handle, object, export order.
    Hold = 6,
    /// Leased objects: master, mode object.
    Grant = 7,
    /// Framebuffers: id, client, object.
    Framebuffer = 8,
    /// What is shown: CRTC or plane, framebuffer.
    Shown = 9,
    /// The device: its master, the last PRIME token, the last lease token, the journal's length.
    Device = 10,
}

impl AuditKind {
    /// Returns the variant with this number.
    pub fn from_number(number: u32) -> Option<AuditKind> {
        match number {
            1 => Some(AuditKind::Client),
            2 => Some(AuditKind::Master),
            3 => Some(AuditKind::Object),
            4 => Some(AuditKind::Name),
            5 => Some(AuditKind::Token),
            6 => Some(AuditKind::Hold),
            7 => Some(AuditKind::Grant),
            8 => Some(AuditKind::Framebuffer),
            9 => Some(AuditKind::Shown),
            10 => Some(AuditKind::Device),
            _ => None,
        }
    }

    /// Returns the number.
    pub fn number(self) -> u32 {
        self as u32
    }
}

/// The error numbers of the rules, which are Linux's.
pub mod errno {
    pub const ENOENT: i32 = 2;
    pub const ENOMEM: i32 = 12;
    pub const EACCES: i32 = 13;
    pub const EBUSY: i32 = 16;
    pub const EINVAL: i32 = 22;
    pub const ENOSPC: i32 = 28;
}

/// The flags of a client, `b` of its row in an audit.
pub mod client_flag {
    pub const RENDER: u64 = 1;
    pub const ROOT: u64 = 2;
    pub const AUTHENTICATED: u64 = 4;
    pub const ONCE_MASTER: u64 = 8;
    pub const MASTER: u64 = 16;
    pub const MAGIC_SPENT: u64 = 32;
    pub const UNIVERSAL_PLANES_OFF: u64 = 64;
}

/// The capabilities that `get_cap` knows.
pub mod cap {
    pub const DUMB_BUFFER: u64 = 0x1;
    pub const PRIME: u64 = 0x5;
}

/// The capabilities that `set_client_cap` sets.
pub mod client_cap {
    pub const UNIVERSAL_PLANES: u64 = 2;
}

/// How much a served device holds at most.
pub mod limit {
    /// The most clients open at once, of all classes.
    pub const CLIENTS: u32 = 64;
    /// The most handles of one client.
    pub const HANDLES: u32 = 65535;
    /// The highest flink name.
    pub const NAMES: u32 = 65535;
    /// The highest PRIME token, and the highest lease token.
    pub const TOKENS: u32 = 65535;
    /// The most objects.
    pub const OBJECTS: u32 = 65535;
    /// The most framebuffers.
    pub const FRAMEBUFFERS: u32 = 64;
    /// The highest lessee id of one owner.
    pub const LESSEES: u32 = 64;
    /// The most steps that the journal records.
    pub const JOURNAL: u32 = 100000;
}

/// The numbers of requests.
pub(super) mod call {
    pub const VERSION: u16 = 0x00;
    pub const GET_MAGIC: u16 = 0x02;
    pub const GEM_CLOSE: u16 = 0x09;
    pub const GEM_FLINK: u16 = 0x0A;
    pub const GEM_OPEN: u16 = 0x0B;
    pub const GET_CAP: u16 = 0x0C;
    pub const SET_CLIENT_CAP: u16 = 0x0D;
    pub const AUTH_MAGIC: u16 = 0x11;
    pub const SET_MASTER: u16 = 0x1E;
    pub const DROP_MASTER: u16 = 0x1F;
    pub const PRIME_HANDLE_TO_FD: u16 = 0x2D;
    pub const PRIME_FD_TO_HANDLE: u16 = 0x2E;
    pub const BUF_CREATE: u16 = 0x40;
    pub const STAMP_WRITE: u16 = 0x41;
    pub const STAMP_READ: u16 = 0x42;
    pub const TOKEN_CLOSE: u16 = 0x43;
    pub const LIST_HANDLES: u16 = 0x44;
    pub const AUDIT: u16 = 0x45;
    pub const MODE_GETRESOURCES: u16 = 0xA0;
    pub const MODE_GETCRTC: u16 = 0xA1;
    pub const MODE_SETCRTC: u16 = 0xA2;
    pub const MODE_GETENCODER: u16 = 0xA6;
    pub const MODE_GETCONNECTOR: u16 = 0xA7;
    pub const MODE_GETFB: u16 = 0xAD;
    pub const MODE_ADDFB: u16 = 0xAE;
    pub const MODE_RMFB: u16 = 0xAF;
    pub const MODE_CREATE_DUMB: u16 = 0xB2;
    pub const MODE_DESTROY_DUMB: u16 = 0xB4;
    pub const MODE_GETPLANERESOURCES: u16 = 0xB5;
    pub const MODE_GETPLANE: u16 = 0xB6;
    pub const MODE_SETPLANE: u16 = 0xB7;
    pub const MODE_CREATE_LEASE: u16 = 0xC6;
    pub const MODE_LIST_LESSEES: u16 = 0xC7;
    pub const MODE_GET_LEASE: u16 = 0xC8;
    pub const MODE_REVOKE_LEASE: u16 = 0xC9;
}

/// The numbers of answers.
pub(super) mod answer {
    pub const DONE: u16 = 0x1000;
    pub const OPENED: u16 = 0x1001;
    pub const VERSION: u16 = 0x1002;
    pub const NUMBER: u16 = 0x1003;
    pub const DUMB: u16 = 0x1004;
    pub const BUFFER: u16 = 0x1005;
    pub const RESOURCES: u16 = 0x1006;
    pub const LIST: u16 = 0x1007;
    pub const PLANE: u16 = 0x1008;
    pub const FRAMEBUFFER: u16 = 0x1009;
    pub const LEASE: u16 = 0x100A;
    pub const AUDIT: u16 = 0x100B;
    pub const DENIED: u16 = 0x2000;
    pub const APART: u16 = 0x2001;
}
