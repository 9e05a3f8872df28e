//! Links the library that ships and those of forwarders for this machine, which `./build` leaves in the repository's target/staticlib.
//! The environment variable DUNKAFETO_LIB names another folder that has them, such as target/staticlib/aarch64 for a target of that name.

fn main() {
    println!("cargo::rerun-if-env-changed=DUNKAFETO_LIB");
    let beside = || std::env::var("CARGO_MANIFEST_DIR").unwrap() + "/../../target/staticlib";
    let folder = std::env::var("DUNKAFETO_LIB").ok().filter(|folder| !folder.is_empty()).unwrap_or_else(beside);
    println!("cargo::rustc-link-search=native={folder}");
    for name in ["probe", "probe_palette", "probe_training", "probe_calls", "dunkafeto"] {
        println!("cargo::rerun-if-changed={folder}/lib{name}.a");
        println!("cargo::rustc-link-lib=static={name}");
    }
}
