//! Links the archive that `tools/staticlib` makes from the folder that `TARPUDHRIV_LIB` names. Without it every step is asked of the driver.

fn main() {
    println!("cargo:rerun-if-env-changed=TARPUDHRIV_LIB");
    if let Ok(folder) = std::env::var("TARPUDHRIV_LIB") {
        println!("cargo:rerun-if-changed={folder}/libface_c.a");
        println!("cargo:rustc-link-search=native={folder}");
        println!("cargo:rustc-link-lib=static=face_c");
        println!("cargo:rustc-cfg=linked");
    }
}
