//! Links the archive of crate `face_adding`, which `tools/adding` makes in the folder that `NATIVE` names.

fn main() {
    let native = std::env::var("NATIVE").expect("tools/adding makes the archive and sets NATIVE");
    println!("cargo:rerun-if-env-changed=NATIVE");
    println!("cargo:rerun-if-changed={native}/libface_adding.a");
    println!("cargo:rustc-link-search=native={native}");
    println!("cargo:rustc-link-lib=static=face_adding");
}
