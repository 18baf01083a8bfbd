//! Links the engine's archive: BARLEYCHIME_LIB names it (or its folder), else it is target/staticlib/libbarleychime.a in the
//! project's folder.

use std::env;
use std::path::{Path, PathBuf};

const ARCHIVE: &str = "libbarleychime.a";

fn main() {
    println!("cargo:rerun-if-env-changed=BARLEYCHIME_LIB");
    let here = PathBuf::from(env::var_os("CARGO_MANIFEST_DIR").expect("cargo names the package's folder"));
    let named = env::var_os("BARLEYCHIME_LIB").filter(|path| !path.is_empty());
    let archive = match named.map(PathBuf::from) {
        Some(path) if path.is_dir() => path.join(ARCHIVE),
        Some(path) => path,
        None => here.join("../../target/staticlib").join(ARCHIVE),
    };
    println!("cargo:rerun-if-changed={}", archive.display());
    if archive.file_name() != Some(ARCHIVE.as_ref()) || !archive.is_file() {
        let hint = "`tools/archive barleychime` makes it, or BARLEYCHIME_LIB names it";
        println!("cargo::error={} is not there: {hint}", archive.display());
        return;
    }
    let folder = archive.parent().unwrap_or(Path::new("."));
    println!("cargo:rustc-link-search=native={}", folder.canonicalize().expect("the archive's folder").display());
    println!("cargo:rustc-link-lib=static=barleychime");
}
