//! Lays the Rust's files out in OUT_DIR, byte for byte, as the module tree that they were written for.
//!
//! The package `unchanged` has prng.rs, color.rs and incremental/{mod,quantizer,palette,stats}.rs as they are.
//! The package `probed` has them with one `mod probe;` line after the end of prng.rs, quantizer.rs and palette.rs, and
//! with another right side in the one line of color.rs that fixes the chroma weight.
//! In both, incremental/dither.rs, which the undithered trainer only names, carries the door through which a caller
//! outside reaches what `incremental` keeps to itself.

use std::path::{Path, PathBuf};
use std::{env, fs};

const FILES: [&str; 7] = [
    "prng.rs",
    "color.rs",
    "quant/incremental/mod.rs",
    "quant/incremental/quantizer.rs",
    "quant/incremental/palette.rs",
    "quant/incremental/stats.rs",
    "quant/incremental/dither.rs",
];

/// A file, what is appended to it, and where the compiler looks for that.
const PROBES: [(&str, &str, &str); 3] = [
    ("prng.rs", "probe/prng.rs", "probe.rs"),
    ("quant/incremental/quantizer.rs", "probe/quantizer.rs", "quant/incremental/quantizer/probe.rs"),
    ("quant/incremental/palette.rs", "probe/palette.rs", "quant/incremental/palette/probe.rs"),
];

const WEIGHT_LINE: &str = "const CHROMA_WEIGHT: f32 = 2.15;\n";
const ASKED_WEIGHT_LINE: &str = "const CHROMA_WEIGHT: terms::host::Weight = terms::host::Weight;\n";

fn main() {
    let tree = package().join("../tree");
    let out = PathBuf::from(env::var("OUT_DIR").unwrap()).join("src");
    let probed = env::var("CARGO_PKG_NAME").unwrap() == "probed";

    println!("cargo::rustc-check-cfg=cfg(probed)");
    if probed {
        println!("cargo::rustc-cfg=probed");
    }
    println!("cargo::rerun-if-changed={}", tree.display());

    lay_out(&out);
    append(&out.join("quant/incremental/dither.rs"), "\npub(super) mod door;\n");
    write(&out.join("quant/incremental/dither/door.rs"), &read(&tree.join("door.rs")));
    if probed {
        for (file, probe, place) in PROBES {
            append(&out.join(file), "\nmod probe;\n");
            write(&out.join(place), &read(&tree.join(probe)));
        }
        let color = out.join("color.rs");
        let text = read(&color);
        assert_eq!(text.matches(WEIGHT_LINE).count(), 1, "color.rs fixes the chroma weight in one line");
        write(&color, &text.replace(WEIGHT_LINE, ASKED_WEIGHT_LINE));
    }
    modules(&tree, &out);
}

/// Copies the Rust's files.
pub fn lay_out(out: &Path) {
    let rust = sources();
    println!("cargo::rerun-if-env-changed=DUNKAFETO_RUST");
    for file in FILES {
        println!("cargo::rerun-if-changed={}", rust.join(file).display());
        write(&out.join(file), &read(&rust.join(file)));
    }
}

pub fn package() -> PathBuf {
    PathBuf::from(env::var("CARGO_MANIFEST_DIR").unwrap())
}

/// The folder that has prng.rs: that of the environment variable, or the one beside the repository.
fn sources() -> PathBuf {
    let named = env::var_os("DUNKAFETO_RUST").filter(|folder| !folder.is_empty());
    let folder = named.map_or_else(|| package().join("../../../shared/docs/src"), PathBuf::from);
    [folder.join("src"), folder.clone()]
        .into_iter()
        .find(|place| place.join("prng.rs").is_file())
        .unwrap_or_else(|| panic!("no prng.rs in {} or its src: set DUNKAFETO_RUST", folder.display()))
}

/// The file that lib.rs includes: the Rust's modules beside the shims.
pub fn modules(tree: &Path, out: &Path) {
    let shim =
        |name: &str| format!("#[path = {:?}]\npub mod {name};\n", tree.join("shims").join(name).with_extension("rs"));
    let own = |name: &str| format!("#[path = {:?}]\npub mod {name};\n", out.join(name).with_extension("rs"));
    let quant = format!(
        "pub mod quant {{\n#[path = {:?}]\npub mod incremental;\ninclude!({:?});\n}}\n",
        out.join("quant/incremental/mod.rs"),
        tree.join("shims/quant.rs"),
    );
    let text =
        ["dither", "image", "mode", "palette"].map(shim).concat() + &["color", "prng"].map(own).concat() + &quant;
    write(&out.with_file_name("modules.rs"), &text);
}

pub fn read(path: &Path) -> String {
    fs::read_to_string(path).unwrap_or_else(|e| panic!("{}: {e}", path.display()))
}

pub fn write(path: &Path, text: &str) {
    fs::create_dir_all(path.parent().unwrap()).unwrap();
    fs::write(path, text).unwrap_or_else(|e| panic!("{}: {e}", path.display()));
}

pub fn append(path: &Path, line: &str) {
    write(path, &(read(path) + line));
}
