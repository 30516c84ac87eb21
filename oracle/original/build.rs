//! Finds the originals and writes the lines that compile them by path.
//!
//! They are not copied into the repository: their folder comes from the
//! environment variable WIRESCRIPT_SRC, by default `../shared/docs/src` beside
//! the repository's root.

use std::path::{Path, PathBuf};
use std::{env, fs};

const CRATE: &str = "crates/wirescript-ir/src";

/// Module name, file and FNV-1a digest of the file as published (8393f639ce).
const COMPILED: [(&str, &str, u64); 5] = [
    ("pub mod bus", "layout/bus.rs", 0x33fb_4569_59c0_6bf0),
    ("mod gutter", "layout/code/gutter.rs", 0x3bf8_91cc_9379_6ff2),
    ("mod nodes", "layout/code/nodes.rs", 0x8c06_250d_95ef_a789),
    (
        "mod adjacency",
        "layout/code/adjacency.rs",
        0x0bc7_497a_134a_3cc3,
    ),
    (
        "pub mod gate_class",
        "ir/gate_class.rs",
        0x1f93_5e58_925c_46ce,
    ),
];

/// Constants of `layout/code.rs` that gutter.rs imports; read from the file.
const CONSTANTS: [&str; 8] = [
    "REROUTER_HALF",
    "LANE_PITCH",
    "BUS_BAND_GUTTER",
    "TAP_GAP",
    "LANE_PAIR_HEIGHT",
    "MIN_LANE_TRAVEL",
    "STAGGER_STEP",
    "TAP_RESERVE",
];

fn main() {
    println!("cargo::rerun-if-env-changed=WIRESCRIPT_SRC");
    let root = source_folder();
    let out = PathBuf::from(env::var("OUT_DIR").expect("cargo sets OUT_DIR"));
    for (module, file, digest) in COMPILED {
        let path = original(&root, file);
        check_digest(&path, digest);
        // `include!`d in the module below which the original stands.
        let line = format!("#[path = {path:?}]\n{module};\n");
        let name = module.rsplit(' ').next().unwrap_or(module);
        fs::write(out.join(format!("{name}.in")), line).expect("OUT_DIR can be written");
    }
    let code = original(&root, "layout/code.rs");
    fs::write(out.join("constants.in"), constants(&code)).expect("OUT_DIR can be written");
}

fn source_folder() -> PathBuf {
    if let Ok(given) = env::var("WIRESCRIPT_SRC") {
        return PathBuf::from(given);
    }
    let here = PathBuf::from(env::var("CARGO_MANIFEST_DIR").expect("cargo sets it"));
    here.join("../../../shared/docs/src")
}

/// The absolute path of one original, or a message that says what to do.
fn original(root: &Path, file: &str) -> PathBuf {
    let path = root.join(CRATE).join(file);
    println!("cargo::rerun-if-changed={}", path.display());
    match path.canonicalize() {
        Ok(found) => found,
        Err(_) => {
            eprintln!("The Rust original {} is not there.", path.display());
            eprintln!("Set WIRESCRIPT_SRC to the folder that holds {CRATE}");
            eprintln!("(repository Meshiest/wirescript at 8393f639ce), by default");
            eprintln!("../shared/docs/src beside this repository's root.");
            std::process::exit(1);
        }
    }
}

fn check_digest(path: &Path, digest: u64) {
    let bytes = fs::read(path).expect("the original can be read");
    let mut found = 0xcbf2_9ce4_8422_2325_u64;
    for b in &bytes {
        found = (found ^ u64::from(*b)).wrapping_mul(0x0100_0000_01b3);
    }
    if found != digest {
        println!(
            "cargo::warning={} is not the published file: digest {found:#018x}, not {digest:#018x}",
            path.display()
        );
    }
}

/// The definitions of the named constants, word for word from code.rs.
fn constants(code: &Path) -> String {
    let text = fs::read_to_string(code).expect("code.rs can be read");
    let mut out = String::new();
    for name in CONSTANTS {
        let head = format!("const {name}: i32 = ");
        let line = text
            .lines()
            .find(|l| l.trim_start_matches("pub ").starts_with(&head))
            .unwrap_or_else(|| panic!("code.rs defines {name} on one line"));
        out.push_str(line);
        out.push('\n');
    }
    out
}
