//! Links the archive of crate `face_timing`, which `tools/benchmark` makes in the folder that `NATIVE` names.

fn main() {
    let native = std::env::var("NATIVE").expect("tools/benchmark makes the archive and sets NATIVE");
    println!("cargo:rerun-if-env-changed=NATIVE");
    println!("cargo:rerun-if-changed={native}/libface_timing.a");
    println!("cargo:rustc-link-search=native={native}");
    println!("cargo:rustc-link-lib=static=face_timing");
    for name in ["memcpy", "memmove", "memset"] {
        println!("cargo:rustc-link-arg-bin=moved=-Wl,--wrap={name}");
    }
}
