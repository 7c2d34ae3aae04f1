//! Links libstation.a, which `tools/build station_c` proves and writes; it is for x86-64.
fn main() {
    let root = std::path::Path::new(env!("CARGO_MANIFEST_DIR")).parent().unwrap();
    let folder = root.join("target/staticlib");
    println!("cargo:rustc-link-search=native={}", folder.display());
    println!("cargo:rustc-link-lib=static=station");
    println!("cargo:rerun-if-changed={}", folder.join("libstation.a").display());
}
