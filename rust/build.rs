//! Links the library that tools/staticlib has made, and takes the constants of its header over.

use std::{env, fs, path::Path};

const HEADER: &str = concat!(env!("CARGO_MANIFEST_DIR"), "/../include/hraunlik.h");
const MADE: &str = concat!(env!("CARGO_MANIFEST_DIR"), "/../target/host");

/// A line of Rust for each `HRAUNLIK_NAME = 12` of the header.
fn constants(header: &str) -> String {
    let constant = |entry: &str| {
        let (name, rest) = entry.split_once(" = ")?;
        let number = rest.split(|c: char| !c.is_ascii_digit()).next()?;
        Some(format!("pub const {name}: usize = {number};\n"))
    };
    header.split("HRAUNLIK_").filter_map(constant).collect()
}

fn main() {
    let header = fs::read_to_string(HEADER).expect("the header is there");
    let out = env::var("OUT_DIR").expect("cargo names it");
    fs::write(Path::new(&out).join("header.rs"), constants(&header)).expect("it can be written");
    println!("cargo:rerun-if-changed={HEADER}");
    println!("cargo:rustc-link-search=native={MADE}");
    println!("cargo:rustc-link-lib=static=hraunlik");
    println!("cargo:rerun-if-changed={MADE}/libhraunlik.a");
}
