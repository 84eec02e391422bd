// Links the static library that tools/capi builds.
use std::path::Path;

fn main() {
    let library = Path::new(env!("CARGO_MANIFEST_DIR")).join("../crates/capi/out");
    println!(
        "cargo:rerun-if-changed={}",
        library.join("libringbench.a").display()
    );
    println!("cargo:rustc-link-search=native={}", library.display());
    println!("cargo:rustc-link-lib=static=ringbench");
}
