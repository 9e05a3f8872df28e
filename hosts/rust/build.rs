//! Links libdunkafeto.a for this machine, which `./build dunkafeto` leaves in the repository's target/staticlib.
//! The environment variable DUNKAFETO_LIB names another folder that has it, such as target/staticlib/aarch64 for a target of that name.

use std::env;
use std::path::{Path, PathBuf};

fn main() {
    println!("cargo:rerun-if-env-changed=DUNKAFETO_LIB");
    let machine = env::var("CARGO_CFG_TARGET_ARCH").unwrap_or_default();
    if machine != "x86_64" && machine != "aarch64" {
        give_up(&format!("libdunkafeto.a is for x86-64 and aarch64, not for {machine}"));
    }
    let beside = || Path::new(&env::var_os("CARGO_MANIFEST_DIR").unwrap()).join("../../target/staticlib");
    let named = env::var_os("DUNKAFETO_LIB").filter(|folder| !folder.is_empty());
    let folder = named.map_or_else(beside, PathBuf::from);
    let archive = folder.join("libdunkafeto.a");
    println!("cargo:rerun-if-changed={}", archive.display());
    if !archive.is_file() {
        let (folder, make) = (folder.display(), "`./build dunkafeto` in the repository makes it");
        give_up(&format!("no libdunkafeto.a in {folder}: {make}; DUNKAFETO_LIB names another folder that has it"));
    }
    println!("cargo:rustc-link-search=native={}", folder.display());
    println!("cargo:rustc-link-lib=static=dunkafeto");
}

fn give_up(why: &str) -> ! {
    eprintln!("{why}");
    std::process::exit(1);
}
