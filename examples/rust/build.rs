//! Links the proved library from the folder that SADDLEMINT_LIBRARY names.

fn main() {
    println!("cargo:rerun-if-env-changed=SADDLEMINT_LIBRARY");
    let folder = std::env::var("SADDLEMINT_LIBRARY").expect("SADDLEMINT_LIBRARY: the folder of libcapi.a");
    println!("cargo:rustc-link-search=native={folder}");
    println!("cargo:rustc-link-lib=static=capi");
    println!("cargo:rerun-if-changed={folder}/libcapi.a");
}
