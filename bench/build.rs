//! Links the static library that `rt lib` wrote in crates/bindings.

use std::path::Path;

fn main() {
    let root = Path::new(env!("CARGO_MANIFEST_DIR")).join("..");
    let folder = root.join("crates").join("bindings").join("out");
    println!("cargo::rustc-link-search=native={}", folder.display());
    println!("cargo::rustc-link-lib=static=bindings");
    println!(
        "cargo::rerun-if-changed={}",
        folder.join("libbindings.a").display()
    );
}
