//! The library beside the original: the same sheets through both, with every
//! length and poison in every buffer.

pub mod both;
pub mod boxes;
pub mod buses;
pub mod clicks;
pub mod depths;
pub mod differ;
pub mod handed;
pub mod lists;
pub mod plain;
pub mod plot;
pub mod reading;
pub mod room;
pub mod sheets;
pub mod truth;
pub mod typed;
