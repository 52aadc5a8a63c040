//! Links the project's static library where it stands, and sets `linked` so that what calls it is compiled in.

use std::env;
use std::path::Path;

/// The only processor the library is compiled for.
const PROCESSOR: &str = "x86_64";

fn main() {
    let manifest = env::var("CARGO_MANIFEST_DIR").expect("cargo names the manifest's folder");
    let processor = env::var("CARGO_CFG_TARGET_ARCH").expect("cargo names the processor");
    let folder = Path::new(&manifest).join("../target/staticlib");
    let archive = folder.join("librugulosca.a");
    println!("cargo::rustc-check-cfg=cfg(linked)");
    println!("cargo::rerun-if-changed={}", archive.display());
    if archive.exists() && processor == PROCESSOR {
        println!("cargo::rustc-link-search=native={}", folder.display());
        println!("cargo::rustc-link-lib=static=rugulosca");
        println!("cargo::rustc-cfg=linked");
    }
}
