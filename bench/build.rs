//! Links the proved static library, `libcapi.a`, where it stands: in `../crates/capi/out`, or in the
//! folder that the environment variable QDR_STATICLIB names. With the archive the program is built
//! under `cfg(proved)`; without it the reference and its tests build alone.

use std::env;
use std::path::{Path, PathBuf};

fn main() {
    println!("cargo:rerun-if-env-changed=QDR_STATICLIB");
    println!("cargo:rustc-check-cfg=cfg(proved)");
    let named = env::var_os("QDR_STATICLIB").map(PathBuf::from);
    let here = env::var_os("CARGO_MANIFEST_DIR").expect("cargo names the manifest's folder");
    let folder = named
        .clone()
        .unwrap_or_else(|| Path::new(&here).join("../crates/capi/out"));
    let archive = folder.join("libcapi.a");
    println!("cargo:rerun-if-changed={}", archive.display());
    if archive.is_file() {
        println!("cargo:rustc-cfg=proved");
        println!("cargo:rustc-link-search=native={}", folder.display());
        println!("cargo:rustc-link-lib=static=capi");
    } else if named.is_some() {
        panic!(
            "QDR_STATICLIB is set, and there is no {}",
            archive.display()
        );
    }
}
