//! Links the static library of `cabi`, and the C code that it calls for memory.
fn main() {
    let folder = std::env::var("CARGO_MANIFEST_DIR").expect("cargo sets it");
    println!("cargo:rustc-link-search=native={folder}/../archives");
    println!("cargo:rustc-link-lib=static=cabi");
    println!("cargo:rustc-link-lib=static=libc_c");
    println!("cargo:rustc-link-lib=static=os_c");
}
