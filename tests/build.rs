//! Links the archive when the feature `archive` asks for it: the file that HSC_ARCHIVE names,
//! else `../target/staticlib/libhsc.a`.

use std::env;
use std::path::PathBuf;

fn main() {
    println!("cargo:rerun-if-changed=build.rs");
    println!("cargo:rerun-if-env-changed=HSC_ARCHIVE");
    if env::var_os("CARGO_FEATURE_ARCHIVE").is_none() {
        return;
    }
    let named = env::var_os("HSC_ARCHIVE").map(PathBuf::from);
    let archive = named.unwrap_or_else(|| PathBuf::from("../target/staticlib/libhsc.a"));
    let archive = archive
        .canonicalize()
        .unwrap_or_else(|error| panic!("the archive {} cannot be linked: {error}", archive.display()));
    let folder = archive.parent().expect("a file stands in a folder");
    let name = archive.file_name().expect("a file has a name");
    println!("cargo:rerun-if-changed={}", archive.display());
    println!("cargo:rustc-link-search=native={}", folder.display());
    println!("cargo:rustc-link-lib=static:+verbatim={}", name.display());
}
