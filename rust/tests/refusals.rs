//! Every refusal, its line, and the poison that stays where it was.

use panzhyqur::calls::{self, HitsNumbers, Output, PlanNumbers, Work};
use panzhyqur::{Buffers, LaneBuffers, Limits, PageBox, Reason, Refusal, check_sheet, route_sheet};

const POISON: u32 = 0x5eed_5eed;
const NODE: &str = "N 1 0 0 0 1 1 0 0 0 0 0 0;";

fn sheet(short: &str) -> Vec<u8> {
    short.replace(' ', "\t").replace(';', "\n").into_bytes()
}

/// A board whose page opens one lane more than may be.
fn crowded() -> String {
    let mut text = String::from("P 0 0;N 1 3 0 0 1 1 0 - - - - -;N 2 0 0 0 1 1 0 0 8 0 0 -;");
    for port in 1..=513 {
        text += &format!("W 1 {port} 2 {port};");
    }
    text
}

fn cases() -> Vec<(String, Reason, usize)> {
    let case = |text: &str, reason, line| (text.to_string(), reason, line);
    vec![
        case("P 07 0;", Reason::Unreadable, 1),
        case("P 0 0", Reason::Unreadable, 1),
        case("P 0 0;;", Reason::Unreadable, 2),
        case(&"P 0 0;".repeat(65), Reason::OverMost, 65),
        case("P 0 1000001;", Reason::OutOfRange, 1),
        case(&format!("P 0 0;{NODE}{NODE}"), Reason::IdTwice, 3),
        case("C 9 -;", Reason::NotThere, 1),
        case("P 0 0;N 1 0 0 0 1 1 0 - - 0 0 -;", Reason::RowUnplaced, 2),
        case(&crowded(), Reason::TooManyLanes, 1),
    ]
}

#[test]
fn each_is_told() {
    let mut buffers = Buffers::for_limits(&Limits::LIBRARY);
    for (text, reason, line) in cases() {
        let text = sheet(&text);
        let refusal = Refusal { reason, line };
        assert_eq!(route_sheet(&text), Err(refusal));
        assert_eq!(buffers.route(&text).err(), Some(refusal));
        assert_eq!(buffers.plan_bus(&text).err(), Some(refusal));
        assert_eq!(buffers.lay_bus(&text).err(), Some(refusal));
        assert_eq!(buffers.lay_mini_bus(&text).err(), Some(refusal));
        // Whether the box is one or not.
        for page in [0, 99] {
            let page_box = PageBox {
                page,
                ..PageBox::default()
            };
            assert_eq!(buffers.hits(&text, &page_box).err(), Some(refusal));
        }
    }
}

/// Boxes that are none on a board of two pages.
fn bad_boxes() -> Vec<PageBox> {
    let on = |page, x, y| PageBox { page, x, y };
    let (least, most) = (i32::MIN, i32::MAX);
    vec![
        on(2, (0, 9), (0, 9)),
        on(u32::MAX, (0, 9), (0, 9)),
        on(0, (1, 0), (0, 9)),
        on(1, (0, 9), (0, -1)),
        on(1, (most, least), (0, 9)),
        on(0, (0, 9), (least + 1, least)),
        on(7, (9, 0), (9, 0)),
    ]
}

#[test]
fn a_box_that_is_none() {
    let text = sheet("P 0 0;P 0 0;N 1 3 0 0 1 1 0 - - - - -;N 2 0 0 0 1 1 0 0 9 0 0 -;W 1 1 2 1;");
    let refusal = Refusal {
        reason: Reason::BadBox,
        line: 0,
    };
    let mut buffers = Buffers::for_sheet(&text);
    let plan = buffers.route(&text).expect("a board").to_plan();
    assert!(!plan.is_empty());
    for page_box in bad_boxes() {
        assert_eq!(buffers.hits(&text, &page_box).err(), Some(refusal));
        assert_eq!(buffers.plan().to_plan(), plan);
        let mut lent = Lent::new(1, 2, 5);
        let told = lent.find_hits(&text, page_box);
        let due = HitsNumbers {
            refusal: 9,
            ..HitsNumbers::default()
        };
        assert_eq!(told, due, "{page_box:?}");
        assert!(lent.is_poisoned(), "{page_box:?}");
        // 7 comes before.
        lent.hits.pop();
        assert_eq!(lent.find_hits(&text, page_box).refusal, 7);
        assert!(lent.is_poisoned(), "{page_box:?}");
    }
}

/// One number under 21 a wire gives 7, before 8 and with no more need of it; the
/// rest of a longer one stays.
#[test]
fn a_hit_buffer() {
    let crowded = sheet(&crowded());
    let mut lent = Lent::new(513, 1, 516);
    assert_eq!(lent.find_hits(&crowded, PageBox::default()).refusal, 8);
    lent.hits.pop();
    let told = lent.find_hits(&crowded, PageBox::default());
    assert_eq!((told.refusal, told.place), (7, 0));
    assert!(lent.is_poisoned());

    let text = sheet("P 0 0;N 1 3 0 0 1 1 0 - - - - -;N 2 0 0 0 1 1 0 0 9 0 0 -;W 1 1 2 1;");
    let all = PageBox {
        page: 0,
        x: (i32::MIN, i32::MAX),
        y: (i32::MIN, i32::MAX),
    };
    for length in [0, 20, 21, 22, 50] {
        let mut lent = Lent::new(1, 1, 4);
        lent.hits = vec![POISON; length];
        let told = lent.find_hits(&text, all);
        if length < 21 {
            assert_eq!((told.refusal, told.place), (7, 0), "{length} numbers");
            assert!(lent.is_poisoned(), "{length} numbers");
            continue;
        }
        let due = HitsNumbers {
            hit_rerouters: 3,
            hit_wires: 2,
            rerouters: 3,
            bus_wires: 4,
            ports: 1,
            groups: 1,
            ..HitsNumbers::default()
        };
        assert_eq!(told, due);
        // A link, a tap and a gate-side; the wires between them.
        let none = u32::MAX;
        let list = [0, 3, 0, 1, 4, 0, 2, 5, none, 1, 2];
        assert_eq!(lent.hits[..11], list);
        assert!(lent.hits[11..].iter().all(|n| *n == POISON));
        let mut routed = Lent::new(1, 1, 4);
        assert_eq!(routed.route(&text).refusal, 0);
        assert_eq!(lent.rerouters, routed.rerouters);
        assert_eq!(lent.bus_wires, routed.bus_wires);
        assert_eq!(lent.ports, routed.ports);
        assert_eq!(lent.pages, routed.pages);
    }
}

/// A refused save leaves the last accepted plan where it was.
#[test]
fn the_last_plan_stays() {
    let text = sheet(&crowded().replace("W 1 513 2 513;", ""));
    let mut buffers = Buffers::for_limits(&Limits::LIBRARY);
    let plan = buffers.route(&text).expect("512 lanes").to_plan();
    assert_eq!(plan.pages[0].lanes_used, 512);
    for (bad, ..) in cases() {
        assert!(buffers.route(&sheet(&bad)).is_err());
        assert!(buffers.hits(&sheet(&bad), &PageBox::default()).is_err());
        assert_eq!(buffers.plan().to_plan(), plan);
    }
}

#[test]
fn limits_of_the_program() {
    let refusal = |reason, line| Err(Refusal { reason, line });
    let nine = sheet(&"P 0 0;".repeat(9));
    let told = check_sheet(&nine, &Limits::PROGRAM);
    assert_eq!(told, refusal(Reason::OverMost, 9));
    let told = check_sheet(&nine, &Limits::LIBRARY);
    assert_eq!(told, Ok([9, 0, 0, 0, 0, 0]));
    let long = vec![b'P'; 65_537];
    let told = check_sheet(&long, &Limits::PROGRAM);
    assert_eq!(told, refusal(Reason::OverMost, 0));
    let told = check_sheet(&long[1..], &Limits::PROGRAM);
    assert_eq!(told, refusal(Reason::Unreadable, 1));
}

/// Slices of their own, all poisoned.
struct Lent {
    rerouters: Vec<calls::RerouterRow>,
    bus_wires: Vec<[u32; 6]>,
    ports: Vec<[u32; 2]>,
    pages: Vec<[u32; 2]>,
    hits: Vec<u32>,
    records: Vec<[u32; 16]>,
    tables: [Vec<[u32; 8]>; calls::TABLES],
}

fn poisoned<const N: usize>(length: usize) -> Vec<[u32; N]> {
    vec![[POISON; N]; length]
}

impl Lent {
    fn new(wires: usize, pages: usize, records: usize) -> Self {
        let mut tables = std::array::from_fn(|_| poisoned(records));
        tables[calls::TABLES - 1] = poisoned(calls::MARK_ROWS * records);
        Self {
            rerouters: poisoned(5 * wires),
            bus_wires: poisoned(6 * wires),
            ports: poisoned(wires),
            pages: poisoned(pages),
            hits: vec![POISON; calls::HIT_NUMBERS * wires],
            records: poisoned(records),
            tables,
        }
    }

    fn lent(&mut self) -> (Output<'_>, &mut [calls::PageRow], &mut [u32], Work<'_>) {
        let out = Output {
            rerouters: &mut self.rerouters,
            bus_wires: &mut self.bus_wires,
            ports: &mut self.ports,
        };
        let tables = self.tables.each_mut().map(|table| &mut table[..]);
        let work = Work::new(&mut self.records, tables);
        (out, &mut self.pages, &mut self.hits, work)
    }

    fn route(&mut self, text: &[u8]) -> PlanNumbers {
        let (out, pages, _, work) = self.lent();
        calls::route(text, out, pages, work)
    }

    fn find_hits(&mut self, text: &[u8], page_box: PageBox) -> HitsNumbers {
        let PageBox { page, x, y } = page_box;
        let numbers = calls::PageBox {
            page,
            x0: x.0 as u32,
            x1: x.1 as u32,
            y0: y.0 as u32,
            y1: y.1 as u32,
        };
        let (out, pages, hits, work) = self.lent();
        calls::find_hits(text, numbers, hits, out, pages, work)
    }

    fn is_poisoned(&self) -> bool {
        self.rerouters.as_flattened().iter().all(|n| *n == POISON)
            && self.bus_wires.as_flattened().iter().all(|n| *n == POISON)
            && self.ports.as_flattened().iter().all(|n| *n == POISON)
            && self.pages.as_flattened().iter().all(|n| *n == POISON)
            && self.hits.iter().all(|n| *n == POISON)
    }
}

#[test]
fn poison_stays_on_a_refusal() {
    for (text, reason, line) in cases() {
        let text = sheet(&text);
        let mut lent = Lent::new(600, 70, 700);
        let told = lent.route(&text);
        assert_eq!(told.refusal, reason.number() as usize);
        assert_eq!(told.place, line);
        assert!(lent.is_poisoned(), "{reason:?}");
        let told = lent.find_hits(&text, PageBox::default());
        assert_eq!((told.refusal, told.place), (reason.number() as usize, line));
        assert!(lent.is_poisoned(), "{reason:?}");
    }
}

fn cut<T>(rows: &mut Vec<T>) {
    rows.pop();
}

/// Each slice a row short gives 7 and line 0, whatever the plan would need.
#[test]
fn a_short_slice() {
    let text = sheet("P 0 0;N 1 3 0 0 1 1 0 - - - - -;W 1 1 9 1;");
    let shorten: [fn(&mut Lent); 11] = [
        |l| cut(&mut l.rerouters),
        |l| cut(&mut l.bus_wires),
        |l| cut(&mut l.ports),
        |l| cut(&mut l.pages),
        |l| cut(&mut l.records),
        |l| cut(&mut l.tables[0]),
        |l| cut(&mut l.tables[1]),
        |l| cut(&mut l.tables[2]),
        |l| cut(&mut l.tables[3]),
        |l| cut(&mut l.tables[4]),
        |l| cut(&mut l.tables[5]),
    ];
    let mut exact = Lent::new(1, 1, 3);
    assert_eq!(exact.route(&text), PlanNumbers::default());
    for (i, shorten) in shorten.iter().enumerate() {
        let mut lent = Lent::new(1, 1, 3);
        shorten(&mut lent);
        let told = lent.route(&text);
        assert_eq!((told.refusal, told.place), (7, 0), "slice {i}");
        assert!(lent.is_poisoned(), "slice {i}");
        let told = lent.find_hits(&text, PageBox::default());
        assert_eq!((told.refusal, told.place), (7, 0), "slice {i}");
        assert!(lent.is_poisoned(), "slice {i}");
    }
    let mut buffers = Buffers::for_sheet(b"");
    let told = buffers.route(&text).err();
    let short = Refusal {
        reason: Reason::TooShort,
        line: 0,
    };
    assert_eq!(told, Some(short));
}

#[test]
fn lanes() {
    let demand = |first_row, last_row| panzhyqur::BusDemand {
        first_row,
        last_row,
        consumers: 1,
        source_order: 0,
    };
    let mut buffers = LaneBuffers::for_demands(600);
    let mut told = |demands: &[panzhyqur::BusDemand], lanes: usize| {
        let mut lanes = vec![POISON; lanes];
        let refusal = buffers.allocate_lanes(demands, &mut lanes).err();
        assert!(lanes.iter().all(|n| *n == POISON));
        refusal.map(|r| (r.number(), r.demand))
    };
    assert_eq!(told(&[demand(0, 0), demand(2, 1)], 2), Some((3, 1)));
    assert_eq!(told(&[demand(0, 4_096)], 1), Some((3, 0)));
    assert_eq!(told(&[demand(0, 0), demand(1, 1)], 1), Some((7, 0)));
    assert_eq!(told(&vec![demand(0, 0); 513], 513), Some((8, 512)));
    assert_eq!(told(&vec![demand(0, 0); 601], 601), Some((7, 0)));
    assert_eq!(told(&vec![demand(0, 0); 8_193], 8_193), Some((2, 8_192)));
}
