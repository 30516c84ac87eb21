//! Names, numbers and bricks, under the original's names and in its order of
//! fields. What document 01 adds to a type stands at its end.

use std::error::Error;
use std::fmt;

/// A number that stands for no case of an enum.
#[derive(Clone, Copy, Debug, PartialEq, Eq)]
pub struct UnknownNumber {
    /// The enum's name.
    pub of: &'static str,
    pub number: u32,
}

impl fmt::Display for UnknownNumber {
    fn fmt(&self, f: &mut fmt::Formatter<'_>) -> fmt::Result {
        write!(f, "{} is no number of {}", self.number, self.of)
    }
}

impl Error for UnknownNumber {}

/// An enum whose cases have the numbers of the sheets.
macro_rules! numbered {
    ($(#[$doc:meta])* $name:ident { $($(#[$case_doc:meta])* $case:ident = $number:literal,)* }) => {
        $(#[$doc])*
        #[derive(Clone, Copy, Debug, PartialEq, Eq, Hash, PartialOrd, Ord)]
        #[repr(u32)]
        pub enum $name {
            $($(#[$case_doc])* $case = $number,)*
        }

        impl $name {
            /// Every case, in order.
            pub const ALL: &[Self] = &[$(Self::$case,)*];

            /// The number that stands for it on a sheet.
            pub const fn number(self) -> u32 {
                self as u32
            }
        }

        impl TryFrom<u32> for $name {
            type Error = $crate::types::UnknownNumber;

            fn try_from(number: u32) -> Result<Self, Self::Error> {
                match number {
                    $($number => Ok(Self::$case),)*
                    _ => Err($crate::types::UnknownNumber { of: stringify!($name), number }),
                }
            }
        }
    };
}
pub(crate) use numbered;

numbered! {
    /// How a brick is turned; `NodeRotation` of the original.
    Rotation {
        Deg0 = 0,
        Deg90 = 1,
        Deg180 = 2,
        Deg270 = 3,
    }
}

numbered! {
    /// Which structure a rerouter belongs to; `BusRole` of the original.
    Role {
        /// A lane's head, link or tap, or a gate-side rerouter.
        Gutter = 0,
        /// A corner, which turns one line's own wire down.
        Line = 1,
        /// Stands beside a producer and hands its value to the lane's head.
        Source = 2,
    }
}

numbered! {
    /// Which part of a run a rerouter is.
    Part {
        Source = 1,
        Head = 2,
        Link = 3,
        Tap = 4,
        GateSide = 5,
        Corner = 6,
    }
}

numbered! {
    /// What a body node is; `NodeKind` of the original.
    Kind {
        Gate = 0,
        Event = 1,
        Chip = 2,
        Input = 3,
        Output = 4,
        Coerce = 5,
    }
}

numbered! {
    /// What the router asks of a node's gate class.
    Class {
        Other = 0,
        /// One of the four classes of `is_bus_worthy_source`.
        Storage = 1,
        /// A literal or an unsupported gate: it has no brick to wire.
        InlineOnly = 2,
    }
}

/// A node's id.
#[derive(Clone, Copy, Debug, Default, PartialEq, Eq, Hash, PartialOrd, Ord)]
pub struct NodeId(pub u32);

impl NodeId {
    pub const fn port(self, port: WirePort) -> PortRef {
        PortRef {
            node_id: self,
            port,
        }
    }
}

/// A port's number; its order stands for that of the original's `as_str`.
#[derive(Clone, Copy, Debug, Default, PartialEq, Eq, Hash, PartialOrd, Ord)]
pub struct WirePort(pub u16);

impl WirePort {
    /// The original's `WirePort::Layout`: wires at it are passed over.
    pub const LAYOUT: Self = Self(0);
}

/// A node with its port.
#[derive(Clone, Copy, Debug, Default, PartialEq, Eq, Hash, PartialOrd, Ord)]
pub struct PortRef {
    pub node_id: NodeId,
    pub port: WirePort,
}

/// A rerouter's number: its place among the plan's nodes.
pub type BusNodeId = usize;

/// A rerouter brick; `BusNode` of the original.
#[derive(Clone, Copy, Debug, PartialEq, Eq, Hash)]
pub struct Rerouter {
    pub x: i32,
    pub y: i32,
    pub z: i32,
    pub rotation: Rotation,
    pub role: Role,
    /// The node whose brick's colour it mirrors: always one.
    pub color_of: Option<NodeId>,
    pub part: Part,
    pub page: usize,
    /// The lane of a head, link or tap.
    pub lane: Option<usize>,
    /// How far it is from its port: 1 where the port feeds it, else one more
    /// than the depth of the rerouter that feeds it.
    pub depth: u32,
}

/// One end of a bus wire: a rerouter or a real port; `BusEnd` of the original.
#[derive(Clone, Copy, Debug, PartialEq, Eq, Hash)]
pub enum End {
    Bus(BusNodeId),
    Node(PortRef),
}

/// The board's wire that a bus wire delivers, and how many rerouters it
/// passed on the way from its port: the depth of the one that it leaves.
#[derive(Clone, Copy, Debug, PartialEq, Eq, Hash)]
pub struct Delivery {
    pub wire: usize,
    pub distance: usize,
}

/// A wire from a port or a rerouter to a rerouter or a port.
#[derive(Clone, Copy, Debug, PartialEq, Eq, Hash)]
pub struct BusWire {
    pub source: End,
    pub target: End,
    /// Of a wire that ends at a port.
    pub delivery: Option<Delivery>,
}

/// What `plan_bus` says of a page.
#[derive(Clone, Copy, Debug, Default, PartialEq, Eq, Hash)]
pub struct PageBus {
    pub band_width: i32,
    pub lanes_used: usize,
}

/// The original's names.
pub type NodeRotation = Rotation;
/// The original's name.
pub type NodeKind = Kind;
/// The original's name.
pub type BusRole = Role;
/// The original's name.
pub type BusNode = Rerouter;
/// The original's name.
pub type BusEnd = End;

#[cfg(test)]
mod tests {
    use super::*;

    fn round<T: Copy + TryFrom<u32> + PartialEq>(all: &[T], number: fn(T) -> u32, least: u32) {
        for (case, n) in all.iter().zip(least..) {
            assert_eq!(number(*case), n);
            assert!(T::try_from(n).is_ok_and(|back| back == *case));
        }
        let most = least + all.len() as u32;
        for n in [least.wrapping_sub(1), most, 7, u32::MAX] {
            assert!(T::try_from(n).is_err());
        }
    }

    #[test]
    fn numbers_are_the_sheets() {
        round(Rotation::ALL, Rotation::number, 0);
        round(Role::ALL, Role::number, 0);
        round(Part::ALL, Part::number, 1);
        round(Kind::ALL, Kind::number, 0);
        round(Class::ALL, Class::number, 0);
        let none = Rotation::try_from(4).map_err(|e| e.to_string());
        assert_eq!(none, Err("4 is no number of Rotation".to_string()));
    }
}
