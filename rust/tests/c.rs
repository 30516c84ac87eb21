//! The header for C: held against `calls.rs` and the Rattle source by their
//! texts, and against the library by programs that a C compiler makes.

mod c_texts;

use panzhyqur::calls::{self, BusCounts, Counts, Output, PageBox, Work};
use panzhyqur::{stack, Limits, Reason};
use std::fs;
use std::mem::size_of;
use std::path::{Path, PathBuf};
use std::process::Command;

fn here(name: &str) -> PathBuf {
    Path::new(env!("CARGO_MANIFEST_DIR")).join(name)
}

fn text(name: &str) -> String {
    fs::read_to_string(here(name)).expect("the file is there")
}

/// Whether there is a C compiler; else a word that its tests are passed over.
fn has_compiler() -> bool {
    let there = Command::new("cc").arg("--version").output().is_ok();
    if !there {
        println!("no cc: what needs a C compiler is passed over");
    }
    there
}

/// The folder of the static library, as build.rs finds it.
fn library() -> PathBuf {
    let folder = std::env::var_os("RATTLE_STATICLIB").map(PathBuf::from);
    let folder = folder.unwrap_or_else(|| here("../crates/panzhyqur/out"));
    folder.join("libpanzhyqur.a")
}

/// A program from a C source; warnings are faults.
fn compiled(source: &Path, name: &str) -> PathBuf {
    let program = Path::new(env!("CARGO_TARGET_TMPDIR")).join(name);
    let out = Command::new("cc")
        .args(["-std=c99", "-Wall", "-Wextra", "-pedantic", "-Werror", "-I"])
        .arg(here("include"))
        .arg("-o")
        .args([&program, source, &library()])
        .output()
        .expect("cc runs");
    let told = String::from_utf8_lossy(&out.stderr).into_owned();
    assert!(out.status.success(), "{told}");
    assert_eq!(told, "");
    program
}

/// The sheets of a folder.
fn sheets(folder: &str) -> Vec<PathBuf> {
    let files = fs::read_dir(here(folder)).expect("the folder is there");
    let paths = files.map(|file| file.expect("a file").path());
    paths
        .filter(|p| p.extension().is_some_and(|e| e == "sheet"))
        .collect()
}

/// `examples/route.c` prints the plans of all examples, byte for byte.
#[test]
fn the_worked_program() {
    if !has_compiler() {
        return;
    }
    let program = compiled(&here("../examples/route.c"), "route_in_c");
    let mut all = sheets("../examples");
    all.extend(sheets("../examples/readings"));
    assert!(all.len() >= 40);
    for sheet in all {
        let out = Command::new(&program).arg(&sheet).output();
        let out = out.expect("the program runs");
        let plan = fs::read(sheet.with_extension("plan")).expect("a plan beside it");
        assert_eq!(out.stdout, plan, "{}", sheet.display());
        let refused = plan.starts_with(b"E");
        assert_eq!(out.status.code(), Some(i32::from(refused)));
    }
    let bare = Command::new(&program)
        .current_dir(here("../examples"))
        .output();
    let plan = fs::read(here("../examples/a.plan")).expect("a plan");
    assert_eq!(bare.expect("the program runs").stdout, plan);
    let none = Command::new(&program).arg("no/such/file").output();
    assert_eq!(none.expect("the program runs").status.code(), Some(2));
}

/// Every call from C and from Rust: structs by value and as answers, with the
/// same numbers.
#[test]
fn every_call() {
    if !has_compiler() {
        return;
    }
    let program = compiled(&here("tests/c/calls.c"), "calls_in_c");
    for name in ["a", "kinds", "refused", "readings/corner-lists"] {
        let file = here(&format!("../examples/{name}.sheet"));
        let sheet = fs::read(&file).expect("a sheet");
        let out = Command::new(&program).arg(&file).output();
        let told = String::from_utf8_lossy(&out.expect("the program runs").stdout).into_owned();
        let due = stack::with_stack(|| same_calls(&sheet));
        let told: Vec<&str> = told.lines().collect();
        assert_eq!(told, due, "{name}");
    }
}

/// Buffers of the lengths that `calls.c` has.
struct Lent {
    rerouters: Vec<calls::RerouterRow>,
    bus_wires: Vec<calls::BusWireRow>,
    ports: Vec<calls::PortRow>,
    pages: Vec<calls::PageRow>,
    records: Vec<calls::RecordRow>,
    tables: [Vec<calls::TableRow>; calls::TABLES],
}

impl Lent {
    fn new() -> Self {
        let mut tables = std::array::from_fn(|_| vec![[0; 8]; 32]);
        tables[calls::TABLES - 1] = vec![[0; 8]; calls::MARK_ROWS * 32];
        Self {
            rerouters: vec![[0; 11]; 40],
            bus_wires: vec![[0; 6]; 48],
            ports: vec![[0; 2]; 8],
            pages: vec![[0; 2]; 8],
            records: vec![[0; 16]; 32],
            tables,
        }
    }

    fn lent(&mut self) -> (Output<'_>, &mut [calls::PageRow], Work<'_>) {
        let out = Output {
            rerouters: &mut self.rerouters,
            bus_wires: &mut self.bus_wires,
            ports: &mut self.ports,
        };
        let tables = self.tables.each_mut().map(|table| &mut table[..]);
        let work = Work::new(&mut self.records, tables);
        (out, &mut self.pages, work)
    }
}

fn line(name: &str, numbers: impl IntoIterator<Item = usize>) -> String {
    let numbers = numbers.into_iter().map(|n| format!(" {n}"));
    format!("{name}{}", numbers.collect::<String>())
}

/// What `calls.c` prints.
fn same_calls(sheet: &[u8]) -> Vec<String> {
    let mut told = reading_calls(sheet);
    let mut lent = Lent::new();
    let (_, pages, work) = lent.lent();
    let p = calls::plan_bus(sheet, pages, work);
    let (out, _, work) = lent.lent();
    let laid = calls::lay_bus(sheet, out, work);
    let held = BusCounts {
        rerouters: laid.rerouters,
        bus_wires: laid.bus_wires,
        ports: laid.ports,
    };
    let (out, _, work) = lent.lent();
    let m = calls::lay_mini_bus(sheet, held, out, work);
    let (out, pages, work) = lent.lent();
    let routed = calls::route(sheet, out, pages, work);
    let plan = |n: calls::PlanNumbers| {
        [
            n.refusal,
            n.place,
            n.rerouters,
            n.bus_wires,
            n.ports,
            n.groups,
        ]
    };
    let c = m.counts;
    told.push(line("plan", [p.refusal, p.place, p.pages]));
    told.push(line("lay", plan(laid)));
    told.push(line(
        "turn",
        [m.refusal, m.place, c.rerouters, c.bus_wires, c.ports],
    ));
    told.push(line("route", plan(routed)));
    told.extend(hits_and_answer(sheet, &mut lent));
    told
}

fn reading_calls(sheet: &[u8]) -> Vec<String> {
    let most = Counts {
        records: [64, 4_096, 256, 4_096, 4_096, 8_192],
    };
    let few = Counts {
        records: [1, 2, 3, 4, 5, 1],
    };
    let mut rows = vec![[0; 16]; 32];
    let numbers = |n: calls::SheetNumbers| [n.refusal, n.line].into_iter().chain(n.counts.records);
    let mut told = vec![
        line("check", numbers(calls::check_sheet(sheet, most))),
        line("over", numbers(calls::check_sheet(sheet, few))),
        line("read", numbers(calls::read_sheet(sheet, most, &mut rows))),
        line("row", rows[1].map(|n| n as usize)),
    ];
    let (mut lanes, mut work, mut spare) = ([7; 2], [[0; 8]; 2], [[0; 8]; 2]);
    let demands = [0, 2, 1, 0, 2, 4, 1, 1];
    let report = calls::allocate_lanes(&demands, &mut lanes, &mut work, &mut spare);
    told.push(line("lanes", [report.refusal, report.place, report.count]));
    told.push(line("lane", lanes.map(|n| n as usize)));
    told
}

fn hits_and_answer(sheet: &[u8], lent: &mut Lent) -> [String; 3] {
    let page_box = PageBox {
        page: 0,
        x0: 11,
        x1: 22,
        y0: -8_i32 as u32,
        y1: -3_i32 as u32,
    };
    let mut hits = vec![0; calls::HIT_NUMBERS * 8];
    let (out, pages, work) = lent.lent();
    let h = calls::find_hits(sheet, page_box, &mut hits, out, pages, work);
    let mut said = vec![0; 128 * (8 + 12 * 8 + 1)];
    let (out, pages, work) = lent.lent();
    let bytes = calls::answer(sheet, &mut said, out, pages, work);
    let hit = [h.refusal, h.place, h.hit_rerouters, h.hit_wires];
    let plan = [h.rerouters, h.bus_wires, h.ports, h.groups];
    let count = calls::HIT_FIELDS * h.hit_rerouters + h.hit_wires;
    [
        line("hits", hit.into_iter().chain(plan)),
        line("hit", hits[..count].iter().map(|n| *n as usize)),
        line("answer", [bytes]),
    ]
}

/// Types, structs, prototypes and their order of `calls.rs` and of the header.
#[test]
fn the_header_says_what_calls_declares() {
    let (rust, c) = (text("src/calls.rs"), text("include/panzhyqur.h"));
    let c = c_texts::without_comments(&c);
    let (types, structs) = (c_texts::rust_types(&rust), c_texts::rust_structs(&rust));
    assert_eq!((types.len(), structs.len()), (6, 9));
    assert_eq!(c_texts::c_types(&c), types);
    assert_eq!(c_texts::c_structs(&c), structs);
    let calls = c_texts::rust_calls(&rust);
    assert_eq!(calls.len(), 9);
    assert_eq!(c_texts::c_calls(&c), calls);
}

/// The Rattle sources of some crates, one after the other.
fn rattle(crates: &[&str]) -> String {
    let mut all = String::new();
    for name in crates {
        let files = fs::read_dir(here(&format!("../crates/{name}/src")));
        for file in files.expect("the folder is there") {
            let path = file.expect("a file").path();
            if path.extension().is_some_and(|e| e == "rt") {
                all += &fs::read_to_string(path).expect("text");
            }
        }
    }
    all
}

/// Functions, structs and rows are those of the Rattle source.
#[test]
fn the_rattle_source_has_them() {
    let rust = text("src/calls.rs");
    let mut found = c_texts::rattle_calls(&rattle(&["panzhyqur"]));
    let mut calls = c_texts::rust_calls(&rust);
    found.sort();
    calls.sort();
    assert_eq!(found, calls);

    let source = rattle(&[
        "panzhyqur",
        "lanes",
        "routes",
        "routes_gutter",
        "routes_hits",
        "sheet",
    ]);
    let there = c_texts::rust_structs(&source);
    let here = c_texts::rust_structs(&rust);
    for (name, _) in &here {
        let [due, told] = [&there, &here].map(|all| c_texts::leaves(name, all));
        assert!(!due.is_empty() && due == told, "{name}: {due:?}, {told:?}");
    }

    let rows = c_texts::rust_types(&c_texts::renamed(&rattle(&["base"])));
    for row in c_texts::rust_types(&rust) {
        assert!(rows.contains(&row), "{row:?}");
    }
}

/// What a C compiler makes of the constants and sizes is what they are in Rust.
#[test]
fn constants_and_sizes() {
    let mut constants: Vec<(String, usize)> = vec![
        ("PZ_MISSING".into(), calls::MISSING as usize),
        ("PZ_HIT_NUMBERS".into(), calls::HIT_NUMBERS),
        ("PZ_HIT_FIELDS".into(), calls::HIT_FIELDS),
        ("PZ_TABLES".into(), calls::TABLES),
        ("PZ_MARK_ROWS".into(), calls::MARK_ROWS),
    ];
    let declared = text("src/calls.rs").matches("\npub const ").count();
    assert_eq!(constants.len(), declared, "every constant of calls.rs");
    constants.push(("PZ_STACK_NEED".into(), stack::NEED));
    for reason in Reason::ALL {
        let name = c_texts::snake(&format!("{reason:?}")).to_uppercase();
        constants.push((format!("PZ_{name}"), reason.number() as usize));
    }
    let l = Limits::LIBRARY;
    let most = [l.pages, l.nodes, l.chips, l.inner, l.execs, l.wires];
    let most = most.map(|n| n.to_string()).join(", ");
    let header = text("include/panzhyqur.h");
    assert!(header.contains(&format!("#define PZ_LIBRARY_MOST {{ {{ {most} }} }}\n")));
    constants.extend(sizes());
    if has_compiler() {
        compare(&constants);
    }
}

/// The sizes of rows and structs in Rust, under their C names.
fn sizes() -> impl Iterator<Item = (String, usize)> {
    let sizes = [
        ("pz_rerouter_row", size_of::<calls::RerouterRow>()),
        ("pz_bus_wire_row", size_of::<calls::BusWireRow>()),
        ("pz_port_row", size_of::<calls::PortRow>()),
        ("pz_page_row", size_of::<calls::PageRow>()),
        ("pz_record_row", size_of::<calls::RecordRow>()),
        ("pz_table_row", size_of::<calls::TableRow>()),
        ("pz_lane_report", size_of::<calls::LaneReport>()),
        ("pz_pages_numbers", size_of::<calls::PagesNumbers>()),
        ("pz_plan_numbers", size_of::<calls::PlanNumbers>()),
        ("pz_bus_counts", size_of::<calls::BusCounts>()),
        ("pz_mini_numbers", size_of::<calls::MiniNumbers>()),
        ("pz_page_box", size_of::<calls::PageBox>()),
        ("pz_hits_numbers", size_of::<calls::HitsNumbers>()),
        ("pz_counts", size_of::<calls::Counts>()),
        ("pz_sheet_numbers", size_of::<calls::SheetNumbers>()),
    ];
    let size = |(name, size)| (format!("sizeof({name})"), size);
    sizes.into_iter().map(size)
}

/// A program that fails to compile where a constant differs.
fn compare(constants: &[(String, usize)]) {
    let mut source = String::from("#include \"panzhyqur.h\"\n");
    for (k, (name, value)) in constants.iter().enumerate() {
        source += &format!("typedef char is_{k}[({name}) == {value}u ? 1 : -1];\n");
    }
    source += "int main(void)\n{\n    return 0;\n}\n";
    let file = Path::new(env!("CARGO_TARGET_TMPDIR")).join("constants.c");
    fs::write(&file, source).expect("a file can be written");
    compiled(&file, "constants_in_c");
}
