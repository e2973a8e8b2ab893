//! Says where the proved library lies: `.ci/library executive` writes it.

fn main() {
    let folder = format!("{}/../../target/staticlib", env!("CARGO_MANIFEST_DIR"));
    println!("cargo:rustc-link-search=native={folder}");
    println!("cargo:rustc-link-lib=static=executive");
    println!("cargo:rerun-if-changed={folder}/libexecutive.a");
}
