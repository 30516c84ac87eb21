//! A plan: as a view of the buffers, as a value of its own, and as its sheet.

use crate::calls::{BusWireRow, MISSING, PageRow, PortRow, RerouterRow};
use crate::types::*;
use std::error::Error;
use std::fmt;
use std::ops::Deref;
use std::str::FromStr;

/// What a call left in the buffers, read as it is walked; `BusLayout` of the
/// original. Nothing is copied and nothing is allocated.
#[derive(Clone, Copy, Debug)]
pub struct BusView<'a> {
    pub(crate) rerouters: &'a [RerouterRow],
    pub(crate) bus_wires: &'a [BusWireRow],
    pub(crate) ports: &'a [PortRow],
    pub(crate) laid: usize,
}

/// A number of a row as a case of its enum. The library is proved to write no
/// other; should one stand there, this stops.
pub(crate) fn case<T: TryFrom<u32, Error = UnknownNumber>>(number: u32) -> T {
    T::try_from(number).unwrap_or_else(|e| panic!("in a row of the library's: {e}"))
}

pub(crate) fn maybe(number: u32) -> Option<usize> {
    (number != MISSING).then_some(number as usize)
}

fn rerouter(row: &RerouterRow) -> Rerouter {
    let [x, y, z, rotation, role, part, colour, page, lane, _, depth] = *row;
    Rerouter {
        x: x as i32,
        y: y as i32,
        z: z as i32,
        rotation: case(rotation),
        role: case(role),
        color_of: Some(NodeId(colour)),
        part: case(part),
        page: page as usize,
        lane: maybe(lane),
        depth,
    }
}

fn port(node: u32, port: u32) -> PortRef {
    let port = u16::try_from(port).unwrap_or_else(|_| panic!("port {port} in a row"));
    NodeId(node).port(WirePort(port))
}

fn end(id: u32, its_port: u32) -> End {
    match its_port {
        MISSING => End::Bus(id as usize),
        its_port => End::Node(port(id, its_port)),
    }
}

fn bus_wire(row: &BusWireRow) -> BusWire {
    let [from, from_port, to, to_port, wire, distance] = *row;
    BusWire {
        source: end(from, from_port),
        target: end(to, to_port),
        delivery: maybe(wire).map(|wire| Delivery {
            wire,
            distance: distance as usize,
        }),
    }
}

impl<'a> BusView<'a> {
    /// The rerouters; a place in this list is a rerouter's number.
    pub fn nodes(&self) -> impl ExactSizeIterator<Item = Rerouter> + Clone + use<'a> {
        self.rerouters.iter().map(rerouter)
    }

    /// The bus wires.
    pub fn wires(&self) -> impl ExactSizeIterator<Item = BusWire> + Clone + use<'a> {
        self.bus_wires.iter().map(bus_wire)
    }

    /// The ports whose wires are not to be drawn: ascending, each once.
    pub fn suppressed(&self) -> impl ExactSizeIterator<Item = PortRef> + Clone + use<'a> {
        self.ports.iter().map(|row| port(row[0], row[1]))
    }

    /// Whether wires into a port are not to be drawn.
    pub fn is_suppressed(&self, port: PortRef) -> bool {
        let row = [port.node_id.0, u32::from(port.port.0)];
        self.ports.binary_search(&row).is_ok()
    }

    /// How many groups `lay_bus` laid.
    pub fn laid(&self) -> usize {
        self.laid
    }

    pub fn is_empty(&self) -> bool {
        self.rerouters.is_empty() && self.bus_wires.is_empty() && self.ports.is_empty()
    }

    fn deliveries(&self) -> usize {
        self.bus_wires.iter().filter(|b| b[4] != MISSING).count()
    }
}

/// The whole plan of a board in the buffers. Its `Display` is the plan sheet.
#[derive(Clone, Copy, Debug)]
pub struct PlanView<'a> {
    pub(crate) bus: BusView<'a>,
    pub(crate) pages: &'a [PageRow],
    /// How many wires the board has.
    pub(crate) wires: usize,
}

impl<'a> Deref for PlanView<'a> {
    type Target = BusView<'a>;

    fn deref(&self) -> &BusView<'a> {
        &self.bus
    }
}

/// What `plan_bus` says of the pages whose rows these are.
pub(crate) fn pages_of(
    rows: &[PageRow],
) -> impl ExactSizeIterator<Item = PageBus> + Clone + use<'_> {
    rows.iter().map(|[lanes, band]| PageBus {
        band_width: *band as i32,
        lanes_used: *lanes as usize,
    })
}

impl<'a> PlanView<'a> {
    /// What `plan_bus` says of each page.
    pub fn pages(&self) -> impl ExactSizeIterator<Item = PageBus> + Clone + use<'a> {
        pages_of(self.pages)
    }

    /// The counts at the end of the plan sheet.
    pub fn totals(&self) -> Totals {
        let deliveries = self.bus.deliveries();
        Totals {
            rerouters: self.rerouters.len(),
            bus_wires: self.bus_wires.len(),
            deliveries,
            direct: self.wires.saturating_sub(deliveries),
            laid: self.laid,
        }
    }

    /// A copy that needs the buffers no more.
    pub fn to_plan(&self) -> Plan {
        Plan {
            nodes: self.nodes().collect(),
            wires: self.wires().collect(),
            suppressed: self.suppressed().collect(),
            pages: self.pages().collect(),
            direct: self.totals().direct,
            laid: self.laid,
        }
    }
}

/// The T record of a plan sheet.
#[derive(Clone, Copy, Debug, Default, PartialEq, Eq)]
pub struct Totals {
    pub rerouters: usize,
    pub bus_wires: usize,
    pub deliveries: usize,
    /// Wires less deliveries.
    pub direct: usize,
    /// Groups laid.
    pub laid: usize,
}

/// A plan that owns its records: `BusLayout` of the original, the pages, and
/// two counts. Its `Display` is the plan sheet, and [`FromStr`] reads one.
#[derive(Clone, Debug, Default, PartialEq, Eq)]
pub struct Plan {
    /// The rerouters; a place in this list is a rerouter's number.
    pub nodes: Vec<Rerouter>,
    pub wires: Vec<BusWire>,
    /// The ports whose wires are not to be drawn: ascending, each once.
    pub suppressed: Vec<PortRef>,
    pub pages: Vec<PageBus>,
    /// The board's wires that are not delivered by a bus wire.
    pub direct: usize,
    /// How many groups `lay_bus` laid.
    pub laid: usize,
}

impl Plan {
    pub fn is_empty(&self) -> bool {
        self.nodes.is_empty() && self.wires.is_empty() && self.suppressed.is_empty()
    }

    /// Whether wires into a port are not to be drawn.
    pub fn is_suppressed(&self, port: PortRef) -> bool {
        self.suppressed.binary_search(&port).is_ok()
    }

    /// The counts at the end of the plan sheet.
    pub fn totals(&self) -> Totals {
        Totals {
            rerouters: self.nodes.len(),
            bus_wires: self.wires.len(),
            deliveries: self.wires.iter().filter(|w| w.delivery.is_some()).count(),
            direct: self.direct,
            laid: self.laid,
        }
    }
}

/// A field that may be missing.
pub(crate) struct OrDash<T>(pub(crate) Option<T>);

impl<T: fmt::Display> fmt::Display for OrDash<T> {
    fn fmt(&self, f: &mut fmt::Formatter<'_>) -> fmt::Result {
        match &self.0 {
            Some(shown) => shown.fmt(f),
            None => f.write_str("-"),
        }
    }
}

/// An end as three fields.
struct Fields(End);

impl fmt::Display for Fields {
    fn fmt(&self, f: &mut fmt::Formatter<'_>) -> fmt::Result {
        match self.0 {
            End::Node(p) => write!(f, "p\t{}\t{}", p.node_id.0, p.port.0),
            End::Bus(id) => write!(f, "b\t{id}\t-"),
        }
    }
}

/// The plan sheet.
fn write_sheet(
    f: &mut fmt::Formatter<'_>,
    pages: impl Iterator<Item = PageBus>,
    nodes: impl Iterator<Item = Rerouter>,
    wires: impl Iterator<Item = BusWire>,
    suppressed: impl Iterator<Item = PortRef>,
    totals: Totals,
) -> fmt::Result {
    for (i, p) in pages.enumerate() {
        writeln!(f, "L\t{i}\t{}\t{}", p.lanes_used, p.band_width)?;
    }
    for (i, r) in nodes.enumerate() {
        let Rerouter {
            x,
            y,
            z,
            page,
            depth,
            ..
        } = r;
        let [rotation, role, part] = [r.rotation.number(), r.role.number(), r.part.number()];
        let (colour, lane) = (OrDash(r.color_of.map(|id| id.0)), OrDash(r.lane));
        writeln!(
            f,
            "R\t{i}\t{x}\t{y}\t{z}\t{rotation}\t{role}\t{part}\t{colour}\t{page}\t{lane}\t{depth}"
        )?;
    }
    for w in wires {
        let (from, to) = (Fields(w.source), Fields(w.target));
        let wire = OrDash(w.delivery.map(|d| d.wire));
        let distance = OrDash(w.delivery.map(|d| d.distance));
        writeln!(f, "B\t{from}\t{to}\t{wire}\t{distance}")?;
    }
    for u in suppressed {
        writeln!(f, "U\t{}\t{}", u.node_id.0, u.port.0)?;
    }
    let Totals {
        rerouters,
        bus_wires,
        deliveries,
        direct,
        laid,
    } = totals;
    writeln!(
        f,
        "T\t{rerouters}\t{bus_wires}\t{deliveries}\t{direct}\t{laid}"
    )
}

impl fmt::Display for PlanView<'_> {
    fn fmt(&self, f: &mut fmt::Formatter<'_>) -> fmt::Result {
        let (nodes, wires) = (self.nodes(), self.bus.wires());
        let totals = self.totals();
        write_sheet(f, self.pages(), nodes, wires, self.suppressed(), totals)
    }
}

impl fmt::Display for Plan {
    fn fmt(&self, f: &mut fmt::Formatter<'_>) -> fmt::Result {
        let pages = self.pages.iter().copied();
        let nodes = self.nodes.iter().copied();
        let wires = self.wires.iter().copied();
        let suppressed = self.suppressed.iter().copied();
        write_sheet(f, pages, nodes, wires, suppressed, self.totals())
    }
}

/// A plan sheet that can't be read: the first line that does not fit.
#[derive(Clone, Copy, Debug, PartialEq, Eq)]
pub struct UnreadablePlan {
    pub line: usize,
}

impl fmt::Display for UnreadablePlan {
    fn fmt(&self, f: &mut fmt::Formatter<'_>) -> fmt::Result {
        write!(f, "line {} of the plan sheet does not fit", self.line)
    }
}

impl Error for UnreadablePlan {}

impl FromStr for Plan {
    type Err = UnreadablePlan;

    /// Reads a plan sheet as it is written: sections in order, records counted
    /// from 0, ports ascending, and a T whose counts are those of the records.
    fn from_str(sheet: &str) -> Result<Self, UnreadablePlan> {
        const SECTIONS: &str = "LRBUT";
        let mut plan = Self::default();
        let mut section = 0;
        let mut line = 0;
        for text in sheet.split_inclusive('\n') {
            line += 1;
            let unreadable = UnreadablePlan { line };
            let (letter, fields) = text
                .strip_suffix('\n')
                .and_then(|text| text.split_once('\t'))
                .ok_or(unreadable)?;
            let at = match letter.len() {
                1 => SECTIONS.find(letter).ok_or(unreadable)?,
                _ => return Err(unreadable),
            };
            // One T, and nothing behind it.
            if at < section || section == 4 {
                return Err(unreadable);
            }
            section = at;
            plan.read(letter, fields).ok_or(unreadable)?;
        }
        match section {
            4 => Ok(plan),
            _ => Err(UnreadablePlan { line: line + 1 }),
        }
    }
}

impl Plan {
    /// Reads one record.
    fn read(&mut self, letter: &str, fields: &str) -> Option<()> {
        let mut fields = fields.split('\t');
        let f = &mut fields;
        match letter {
            "L" => {
                (number::<usize>(f)? == self.pages.len()).then_some(())?;
                let lanes_used = number(f)?;
                let band_width = number(f)?;
                self.pages.push(PageBus {
                    band_width,
                    lanes_used,
                });
            }
            "R" => {
                (number::<usize>(f)? == self.nodes.len()).then_some(())?;
                self.nodes.push(read_rerouter(f)?);
            }
            "B" => self.wires.push(read_bus_wire(f)?),
            "U" => {
                let port = read_port(f)?;
                let ascends = self.suppressed.last().is_none_or(|last| *last < port);
                ascends.then_some(())?;
                self.suppressed.push(port);
            }
            _ => {
                let [r, b, d, direct, laid] = [(); 5].map(|()| number::<usize>(f));
                self.direct = direct?;
                self.laid = laid?;
                let Totals {
                    rerouters,
                    bus_wires,
                    deliveries,
                    ..
                } = self.totals();
                ((r?, b?, d?) == (rerouters, bus_wires, deliveries)).then_some(())?;
            }
        }
        fields.next().is_none().then_some(())
    }
}

fn read_rerouter<'a>(f: &mut impl Iterator<Item = &'a str>) -> Option<Rerouter> {
    let [x, y, z] = [(); 3].map(|()| number(f));
    let [rotation, role, part] = [(); 3].map(|()| number::<u32>(f));
    Some(Rerouter {
        x: x?,
        y: y?,
        z: z?,
        rotation: Rotation::try_from(rotation?).ok()?,
        role: Role::try_from(role?).ok()?,
        part: Part::try_from(part?).ok()?,
        color_of: number_or_dash(f)?.map(NodeId),
        page: number(f)?,
        lane: number_or_dash(f)?,
        depth: number(f)?,
    })
}

fn read_bus_wire<'a>(f: &mut impl Iterator<Item = &'a str>) -> Option<BusWire> {
    Some(BusWire {
        source: read_end(f)?,
        target: read_end(f)?,
        delivery: match (number_or_dash(f)?, number_or_dash(f)?) {
            (Some(wire), Some(distance)) => Some(Delivery { wire, distance }),
            (None, None) => None,
            _ => return None,
        },
    })
}

fn read_end<'a>(f: &mut impl Iterator<Item = &'a str>) -> Option<End> {
    match f.next()? {
        "p" => read_port(f).map(End::Node),
        "b" => {
            let id = number(f)?;
            (f.next()? == "-").then_some(End::Bus(id))
        }
        _ => None,
    }
}

fn read_port<'a>(f: &mut impl Iterator<Item = &'a str>) -> Option<PortRef> {
    let node = NodeId(number(f)?);
    Some(node.port(WirePort(number(f)?)))
}

/// A number written just so: no sign but `-`, no leading zero.
fn number<'a, T: FromStr>(f: &mut impl Iterator<Item = &'a str>) -> Option<T> {
    written(f.next()?)
}

fn number_or_dash<'a, T: FromStr>(f: &mut impl Iterator<Item = &'a str>) -> Option<Option<T>> {
    match f.next()? {
        "-" => Some(None),
        text => written(text).map(Some),
    }
}

fn written<T: FromStr>(text: &str) -> Option<T> {
    let digits = text.strip_prefix('-').unwrap_or(text);
    let zero_led = digits.starts_with('0') && text != "0";
    (!zero_led && !digits.starts_with('+'))
        .then(|| text.parse().ok())
        .flatten()
}

#[cfg(test)]
mod tests {
    use super::*;

    const SHEET: &str = "L 0 1 8;L 1 0 0;R 0 20 -5 10 2 2 1 1 0 - 1;R 1 20 -8 10 1 0 2 1 0 0 2;\
        B p 1 5 b 0 - - -;B b 0 - b 1 - - -;B b 1 - p 3 1 7 2;U 3 1;U 3 2;T 2 3 1 9 1;";

    fn sheet(short: &str) -> String {
        short.replace(' ', "\t").replace(';', "\n")
    }

    #[test]
    fn read_and_written() {
        let plan: Plan = sheet(SHEET).parse().expect("a plan sheet");
        assert_eq!(plan.to_string(), sheet(SHEET));
        assert_eq!(plan.nodes[1].part, Part::Head);
        assert_eq!(plan.nodes[1].color_of, Some(NodeId(1)));
        assert_eq!(plan.nodes[1].lane, Some(0));
        assert_eq!(plan.nodes[1].depth, 2);
        let delivery = Some(Delivery {
            wire: 7,
            distance: 2,
        });
        assert_eq!(plan.wires[2].delivery, delivery);
        assert!(plan.is_suppressed(NodeId(3).port(WirePort(2))));
        assert!(!plan.is_suppressed(NodeId(3).port(WirePort(3))));
        let totals = plan.totals();
        assert_eq!((totals.direct, totals.deliveries, totals.laid), (9, 1, 1));
        assert!(!plan.is_empty());
        let empty: Plan = "T\t0\t0\t0\t0\t0\n".parse().expect("the empty plan");
        assert!(empty.is_empty() && empty == Plan::default());
    }

    /// Each damage is told by the line that it is on.
    #[test]
    fn unreadable() {
        let damages = [
            ("L 1 0 0", "L 2 0 0", 2),
            ("L 1 0 0", "L 1 0 00", 2),
            ("L 1 0 0", "L 1 0", 2),
            ("L 1 0 0", "L 1 0 0 0", 2),
            ("L 1 0 0", "L 1 +0 0", 2),
            ("R 1 20", "R 2 20", 4),
            ("R 0 20 -5 10 2 2 1 1 0 -", "R 0 20 -5 10 4 2 1 1 0 -", 3),
            ("R 0 20 -5 10 2 2 1 1 0 -", "R 0 20 -5 10 2 3 1 1 0 -", 3),
            ("R 0 20 -5 10 2 2 1 1 0 -", "R 0 20 -5 10 2 2 0 1 0 -", 3),
            ("R 0 20 -5 10 2 2 1 1 0 -", "R 0 20 -05 10 2 2 1 1 0 -", 3),
            ("2 1 0 0 2;", "2 1 0 0;", 4),
            ("2 1 0 0 2;", "2 1 0 0 -;", 4),
            ("2 1 0 0 2;", "2 1 0 0 02;", 4),
            ("2 1 0 0 2;", "2 1 0 0 -2;", 4),
            ("2 1 0 0 2;", "2 1 0 0 4294967296;", 4),
            ("2 1 0 0 2;", "2 1 0 0 2 2;", 4),
            ("b 0 - - -", "b 0 - 1 -", 5),
            ("b 0 - - -", "b 0 1 - -", 5),
            ("p 1 5", "q 1 5", 5),
            ("p 1 5", "p 1 65536", 5),
            ("U 3 2", "U 3 1", 9),
            ("U 3 2", "R 3 2", 9),
            ("T 2 3 1 9 1", "T 2 3 2 9 1", 10),
            ("T 2 3 1 9 1", "T 2 3 1 9", 10),
            ("T 2 3 1 9 1;", "T 2 3 1 9 1", 10),
            ("T 2 3 1 9 1;", "T 2 3 1 9 1;T 2 3 1 9 1;", 11),
            ("T 2 3 1 9 1;", "", 10),
        ];
        for (was, is, line) in damages {
            let damaged = SHEET.replace(was, is);
            assert_ne!(damaged, SHEET, "{was}");
            let read: Result<Plan, UnreadablePlan> = sheet(&damaged).parse();
            assert_eq!(read, Err(UnreadablePlan { line }), "{is}");
        }
        assert_eq!("".parse::<Plan>(), Err(UnreadablePlan { line: 1 }));
    }

    #[test]
    #[should_panic(expected = "9 is no number of Rotation")]
    fn an_unknown_number_stops() {
        let row = [[0, 0, 0, 9, 0, 1, 0, 0, 0, 0, 1]];
        let bus = BusView {
            rerouters: &row,
            bus_wires: &[],
            ports: &[],
            laid: 0,
        };
        let _ = bus.nodes().next();
    }
}
