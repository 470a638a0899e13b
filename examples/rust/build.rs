//! Links the archive that `tools/staticlib` makes, or one in the folder that TARPUDHRIV_LIBRARY names.

fn main() {
    let made = concat!(env!("CARGO_MANIFEST_DIR"), "/../../target/staticlib");
    let folder = std::env::var("TARPUDHRIV_LIBRARY").unwrap_or(made.to_string());
    println!("cargo:rerun-if-env-changed=TARPUDHRIV_LIBRARY");
    println!("cargo:rustc-link-search=native={folder}");
    println!("cargo:rustc-link-lib=static=face_c");
    println!("cargo:rerun-if-changed={folder}/libface_c.a");
}
