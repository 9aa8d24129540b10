//! Finds the static library: in `ZAKVIND_LIB_DIR`, beside this package, in the `lib` folder of the prefix that it is installed in,
//! or where the repository's `bindings/library` puts it.
use std::env;
use std::path::{Path, PathBuf};

const NAMES: [&str; 2] = ["zakvind", "capi"];

fn archive(folder: &Path) -> Option<(PathBuf, &'static str)> {
    NAMES.iter().map(|name| (folder.join(format!("lib{name}.a")), *name)).find(|(file, _)| file.is_file())
}

fn main() {
    println!("cargo::rerun-if-env-changed=ZAKVIND_LIB_DIR");
    let here = PathBuf::from(env::var_os("CARGO_MANIFEST_DIR").unwrap_or_default());
    let folders = match env::var_os("ZAKVIND_LIB_DIR") {
        Some(folder) => vec![PathBuf::from(folder)],
        None => vec![here.clone(), here.join("lib"), here.join("../../../lib"), here.join("../../target/staticlib")],
    };
    let Some((file, name)) = folders.iter().find_map(|folder| archive(folder)) else {
        println!(
            "cargo::error=libzakvind.a is in none of {folders:?}; `bindings/library` makes it, ZAKVIND_LIB_DIR names its folder"
        );
        return;
    };
    println!("cargo::rerun-if-changed={}", file.display());
    println!("cargo::rustc-link-search=native={}", file.parent().unwrap_or(&here).display());
    println!("cargo::rustc-link-lib=static={name}");
}
