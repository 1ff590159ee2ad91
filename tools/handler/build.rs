//! Links the proved library, as `launcher/library` makes it of what `rt lib` writes in `crates/boundary_c`.
use std::path::Path;
use std::process::exit;

fn main() {
    let root = Path::new(env!("CARGO_MANIFEST_DIR")).join("../..");
    let folder = root.join("target/staticlib");
    let library = folder.join("libtarravane.a");
    println!("cargo:rerun-if-changed={}", library.display());
    if !library.is_file() {
        eprintln!("target/staticlib/libtarravane.a is missing: run `rt lib` in crates/boundary_c and then `launcher/library` first");
        exit(1);
    }
    println!("cargo:rustc-link-search=native={}", folder.display());
    println!("cargo:rustc-link-lib=static=tarravane");
}
