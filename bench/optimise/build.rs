fn main() {
    let lib = std::env::var("IVY_LIBRARY").expect("IVY_LIBRARY: the folder of libivy_c.a");
    println!("cargo:rustc-link-search=native={lib}");
    println!("cargo:rustc-link-lib=static=ivy_c");
    println!("cargo:rerun-if-changed={lib}/libivy_c.a");
    println!("cargo:rerun-if-env-changed=IVY_LIBRARY");
}
