//! Stand-in for the interner: a name is a port's number, and its text is that
//! number padded with zeros, so that text order is numeric order.

use std::sync::LazyLock;

pub type Sym = u16;

const DIGITS: usize = 5;

static NAMES: LazyLock<String> =
    LazyLock::new(|| (0..=u16::MAX).map(|n| format!("{n:05}")).collect());

pub fn resolve(sym: Sym) -> &'static str {
    let at = usize::from(sym) * DIGITS;
    &NAMES[at..at + DIGITS]
}

pub mod sym {
    use std::sync::LazyLock;

    /// Only `port_label` reads it, which no call here reaches.
    pub static PORT_LABEL: LazyLock<super::Sym> = LazyLock::new(|| 0);
}
