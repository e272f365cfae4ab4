//! Links the proved core's archive: the one that DAZOLBEI_LIB names, else `crates/dazolbei/out/libdazolbei.a` of the
//! repository, which `rt lib` in crates/dazolbei writes.

use std::path::PathBuf;

fn main() {
    println!("cargo::rerun-if-env-changed=DAZOLBEI_LIB");
    let archive = match std::env::var_os("DAZOLBEI_LIB") {
        Some(path) => PathBuf::from(path),
        None => PathBuf::from(env!("CARGO_MANIFEST_DIR")).join("../../crates/dazolbei/out/libdazolbei.a"),
    };
    println!("cargo::rerun-if-changed={}", archive.display());
    let Ok(path) = archive.canonicalize() else {
        panic!("no {}: run `rt lib` in crates/dazolbei, or name the archive in DAZOLBEI_LIB", archive.display());
    };
    let name = path.file_stem().and_then(|stem| stem.to_str()).and_then(|stem| stem.strip_prefix("lib"));
    let (Some(folder), Some(name)) = (path.parent(), name) else { panic!("{} is no libNAME.a", path.display()) };
    println!("cargo::rustc-link-search=native={}", folder.display());
    println!("cargo::rustc-link-lib=static={name}");
}
