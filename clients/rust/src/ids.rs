//! Ids and handles, each with its own type: a CRTC's id is no connector's.

use std::fmt;

macro_rules! ids {
    ($($(#[$doc:meta])* $name:ident;)*) => {$(
        $(#[$doc])*
        #[derive(Debug, Clone, Copy, PartialEq, Eq, PartialOrd, Ord, Hash)]
        pub struct $name(pub u32);

        impl From<u32> for $name {
            fn from(number: u32) -> $name {
                $name(number)
            }
        }

        impl From<$name> for u32 {
            fn from(id: $name) -> u32 {
                id.0
            }
        }

        impl fmt::Display for $name {
            fn fmt(&self, out: &mut fmt::Formatter<'_>) -> fmt::Result {
                self.0.fmt(out)
            }
        }
    )*};
}

ids! {
    /// The id of a CRTC.
    CrtcId;
    /// The id of a connector.
    ConnectorId;
    /// The id of an encoder.
    EncoderId;
    /// The id of a plane.
    PlaneId;
    /// The id of a framebuffer.
    FramebufferId;
    /// The id of a mode object of any kind, as leases have it.
    ObjectId;
    /// A client's handle of a buffer.
    BufferHandle;
}

macro_rules! objects {
    ($($name:ident),*) => {$(
        impl From<$name> for ObjectId {
            fn from(id: $name) -> ObjectId {
                ObjectId(id.0)
            }
        }
    )*};
}

objects!(CrtcId, ConnectorId, EncoderId, PlaneId, FramebufferId);

/// Returns the number of an id, and 0 for none.
pub(super) fn or_zero<T: Into<u32>>(id: Option<T>) -> u32 {
    id.map_or(0, Into::into)
}

/// Returns the id with this number, and none for 0.
pub(super) fn unless_zero<T: From<u32>>(number: u32) -> Option<T> {
    (number != 0).then(|| T::from(number))
}
