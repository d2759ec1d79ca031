fn main() {
    let lib = concat!(env!("CARGO_MANIFEST_DIR"), "/../crates/ivy_check/out");
    println!("cargo:rustc-link-search=native={lib}");
    println!("cargo:rustc-link-lib=static=ivy_check");
    println!("cargo:rerun-if-changed={lib}/libivy_check.a");
}
