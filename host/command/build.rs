//! Takes the page of the browser into the command, for `show`: BARLEYCHIME_PAGE names it, else it is target/web/barleychime.html
//! in the project's folder. Where there is none an empty one is taken, and `show` says so.

use std::path::PathBuf;
use std::{env, fs};

fn main() {
    println!("cargo:rerun-if-env-changed=BARLEYCHIME_PAGE");
    let here = PathBuf::from(env::var_os("CARGO_MANIFEST_DIR").expect("cargo names the package's folder"));
    let named = env::var_os("BARLEYCHIME_PAGE").filter(|path| !path.is_empty()).map(PathBuf::from);
    let must_be_there = named.is_some();
    let page = named.unwrap_or_else(|| here.join("../../target/web/barleychime.html"));
    println!("cargo:rerun-if-changed={}", page.display());
    let bytes = match fs::read(&page) {
        Ok(bytes) => bytes,
        Err(error) if must_be_there => {
            println!("cargo::error={}: {error}; BARLEYCHIME_PAGE names the page that `show` writes", page.display());
            return;
        }
        Err(_) => Vec::new(),
    };
    let out = PathBuf::from(env::var_os("OUT_DIR").expect("cargo names the folder for output"));
    fs::write(out.join("barleychime.html"), bytes).expect("the folder for output can be written");
}
