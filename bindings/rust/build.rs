//! Links the archive `libhighvane.a` from the folder that HIGHVANE_LIB names. A relative folder starts from that of the manifest.

use std::env;
use std::path::PathBuf;

fn main() {
    let manifest = PathBuf::from(env::var_os("CARGO_MANIFEST_DIR").expect("cargo names the manifest's folder"));
    let folder = manifest.join(env::var_os("HIGHVANE_LIB").unwrap_or_else(|| "../../target".into()));
    let archive = folder.join("libhighvane.a");
    println!("cargo::rerun-if-env-changed=HIGHVANE_LIB");
    println!("cargo::rerun-if-changed={}", archive.display());
    if !archive.is_file() {
        println!(
            "cargo::error={} is not there: tools/archive makes it, and HIGHVANE_LIB names another folder",
            archive.display()
        );
        return;
    }
    println!("cargo::rustc-link-search=native={}", folder.display());
    println!("cargo::rustc-link-lib=static=highvane");
}
