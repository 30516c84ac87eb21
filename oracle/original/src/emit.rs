//! Stand-in for `emit/options.rs`: where a node stands.

#[derive(Copy, Clone, Debug, PartialEq, Eq, Hash)]
pub struct Placement {
    pub x: i32,
    pub y: i32,
    pub z: i32,
}
