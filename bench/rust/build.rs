//! Lays the Rust's files out in OUT_DIR, byte for byte, as the oracle does, with one line `mod probe;` after the end of
//! quantizer.rs: what it measures is private there. The chroma weight stays the Rust's own.

#[path = "../../oracle/tree/build.rs"]
#[allow(dead_code)]
mod oracle;

use std::path::PathBuf;

fn main() {
    let package = oracle::package();
    let tree = package.join("../../oracle/tree");
    let out = PathBuf::from(std::env::var("OUT_DIR").unwrap()).join("src");
    let probe = package.join("probe.rs");
    oracle::lay_out(&out);
    println!("cargo::rerun-if-changed={}", tree.display());
    println!("cargo::rerun-if-changed={}", probe.display());
    oracle::append(&out.join("quant/incremental/quantizer.rs"), "\nmod probe;\n");
    oracle::write(&out.join("quant/incremental/quantizer/probe.rs"), &oracle::read(&probe));
    oracle::modules(&tree, &out);
}
