//! Feature `structs`: links the archive of the calls on structs, the one that TRY_STRUCT_LIB names, else
//! `crates/try_struct/out/libtry_struct.a` of the repository, which `rt lib` in crates/try_struct writes.

use std::path::PathBuf;

fn main() {
    println!("cargo::rerun-if-env-changed=TRY_STRUCT_LIB");
    if std::env::var_os("CARGO_FEATURE_STRUCTS").is_none() {
        return;
    }
    let archive = match std::env::var_os("TRY_STRUCT_LIB") {
        Some(path) => PathBuf::from(path),
        None => PathBuf::from(env!("CARGO_MANIFEST_DIR")).join("../../crates/try_struct/out/libtry_struct.a"),
    };
    println!("cargo::rerun-if-changed={}", archive.display());
    let Ok(path) = archive.canonicalize() else {
        panic!("no {}: run `rt lib` in crates/try_struct, or name the archive in TRY_STRUCT_LIB", archive.display());
    };
    let name = path.file_stem().and_then(|stem| stem.to_str()).and_then(|stem| stem.strip_prefix("lib"));
    let (Some(folder), Some(name)) = (path.parent(), name) else { panic!("{} is no libNAME.a", path.display()) };
    println!("cargo::rustc-link-search=native={}", folder.display());
    println!("cargo::rustc-link-lib=static={name}");
}
