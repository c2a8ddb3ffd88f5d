//! Links the archive that the repository builds.

use std::path::Path;

fn main() {
    let manifest = std::env::var("CARGO_MANIFEST_DIR").expect("cargo sets the folder of the manifest");
    let folder = Path::new(&manifest).join("../../target/staticlib");
    println!("cargo:rustc-link-search=native={}", folder.display());
    println!("cargo:rustc-link-lib=static=scaltrovina");
    println!("cargo:rerun-if-changed={}", folder.join("libscaltrovina.a").display());
}
