//! Links the proved library, which `rt lib` writes in crates/panel_c.
use std::path::Path;

fn main() {
    let here = std::env::var("CARGO_MANIFEST_DIR").expect("cargo names the crate's folder");
    let folder = Path::new(&here).join("../crates/panel_c/out");
    let library = folder.join("libpanel_c.a");
    if !library.exists() {
        println!("cargo::error=crates/panel_c/out/libpanel_c.a is missing: rt lib in crates/panel_c writes it");
        return;
    }
    println!("cargo::rerun-if-changed={}", library.display());
    println!("cargo::rustc-link-search=native={}", folder.display());
    println!("cargo::rustc-link-lib=static=panel_c");
}
