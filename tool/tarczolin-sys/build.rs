//! Links the static library that `make library` wrote.
use std::path::Path;

fn main() {
    let root = Path::new(env!("CARGO_MANIFEST_DIR")).ancestors().nth(2).expect("the package stands in tool/ of the repository");
    let folder = root.join("target/staticlib");
    println!("cargo:rustc-link-search=native={}", folder.display());
    println!("cargo:rustc-link-lib=static=tarczolin");
    println!("cargo:rerun-if-changed={}", folder.join("libtarczolin.a").display());
}
