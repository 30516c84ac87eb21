//! Stand-ins for `ir/mod.rs`: the node, wire and module fields that the
//! originals read.

use crate::collections::HashMap;
use crate::intern::Sym;
use std::sync::Arc;

include!(concat!(env!("OUT_DIR"), "/gate_class.in"));

pub mod plane {
    /// Only `is_plane_shell` asks, which no call here reaches.
    pub fn plane_spec_for_class(_class: &str) -> Option<()> {
        None
    }
}

pub mod port_registry {
    /// A port is a number, 0 is `Layout`, and numeric order is `as_str` order.
    #[derive(Clone, Copy, Debug, PartialEq, Eq, Hash)]
    pub struct WirePort(pub u16);

    impl WirePort {
        #[allow(non_upper_case_globals)]
        pub const Layout: WirePort = WirePort(0);

        pub fn as_str(self) -> &'static str {
            crate::intern::resolve(self.0)
        }
    }
}

use port_registry::WirePort;

#[derive(Clone, Copy, Debug, PartialEq, Eq, Hash, PartialOrd, Ord)]
pub struct NodeId(pub u32);

#[derive(Clone, Copy, Debug, PartialEq, Eq)]
pub enum NodeKind {
    Gate,
    Event,
    Chip,
    Input,
    Output,
    Coerce,
}

impl NodeKind {
    pub fn has_brick(self) -> bool {
        matches!(
            self,
            Self::Gate | Self::Event | Self::Input | Self::Output | Self::Chip
        )
    }
}

#[derive(Clone, Debug, PartialEq)]
pub enum Literal {
    String(String),
}

#[derive(Clone, Debug, PartialEq, Eq)]
pub enum Type {
    Exec,
}

#[derive(Clone, Debug, PartialEq, Eq)]
pub struct PortSpec {
    pub name: Sym,
    pub ty: Type,
}

#[derive(Clone, Debug, Default, PartialEq, Eq)]
pub struct GateIO {
    pub inputs: Vec<PortSpec>,
}

#[derive(Clone, Debug, Default, PartialEq)]
pub struct SourcePos {
    pub offset: usize,
}

#[derive(Clone, Debug, Default, PartialEq)]
pub struct SourceRange {
    pub start: SourcePos,
    pub end: SourcePos,
    pub file: Arc<str>,
}

#[derive(Clone, Debug, PartialEq)]
pub struct Node {
    pub id: NodeId,
    pub kind: NodeKind,
    pub gate_class: &'static str,
    pub properties: Arc<HashMap<Sym, Literal>>,
    pub ports: GateIO,
    pub source_range: SourceRange,
    pub note: Option<&'static str>,
    /// Stands for the catalogue's lookup: the record carries its half size.
    pub half: (i32, i32),
}

#[derive(Clone, Copy, Debug, PartialEq, Eq, Hash)]
pub struct PortRef {
    pub node_id: NodeId,
    pub port: WirePort,
}

#[derive(Clone, Copy, Debug, PartialEq, Eq)]
pub struct Wire {
    pub source: PortRef,
    pub target: PortRef,
}

#[derive(Clone, Debug, Default)]
pub struct Module {
    pub nodes: HashMap<NodeId, Node>,
    pub wires: Vec<Wire>,
    pub chips: HashMap<NodeId, Self>,
}
