//! Links the proved library, which `./test` and `./demo` put into target/staticlib of the
//! repository. The variable TUNDRIMELA_LIB names another folder that holds libnode.a.

use std::env;
use std::path::{Path, PathBuf};

fn main() {
    println!("cargo:rerun-if-env-changed=TUNDRIMELA_LIB");
    let folder = folder();
    let library = folder.join("libnode.a");
    println!("cargo:rerun-if-changed={}", library.display());
    if !library.is_file() {
        eprintln!(
            "{} is not there: ./test and ./demo make it, by `rt lib` in crates/node_c",
            library.display()
        );
        std::process::exit(1);
    }
    println!("cargo:rustc-link-search=native={}", folder.display());
    println!("cargo:rustc-link-lib=static=node");
}

fn folder() -> PathBuf {
    let manifest = env::var("CARGO_MANIFEST_DIR").expect("cargo sets it");
    match env::var_os("TUNDRIMELA_LIB") {
        Some(folder) => PathBuf::from(folder),
        None => Path::new(&manifest).join("../../target/staticlib"),
    }
}
