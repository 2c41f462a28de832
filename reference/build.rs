//! Finds the verified static library when the feature `linked` asks for it.

use std::env;

fn main() {
    println!("cargo:rerun-if-env-changed=LUTAROSA_LIB_DIR");
    if env::var_os("CARGO_FEATURE_LINKED").is_none() {
        return;
    }
    let folder = env::var("LUTAROSA_LIB_DIR")
        .expect("the feature `linked` needs LUTAROSA_LIB_DIR, the folder of the static library");
    println!("cargo:rerun-if-changed={folder}/liblutarosa.a");
    println!("cargo:rustc-link-search=native={folder}");
    println!("cargo:rustc-link-lib=static=lutarosa");
    println!("cargo:rustc-env=LUTAROSA_LINKED_FROM={folder}");
}
