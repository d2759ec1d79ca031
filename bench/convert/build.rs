fn main() {
    let lib = std::env::var("IVY_LIBRARY").expect("IVY_LIBRARY: the folder of libivy_files_c.a");
    println!("cargo:rustc-link-search=native={lib}");
    println!("cargo:rustc-link-lib=static=ivy_files_c");
    println!("cargo:rerun-if-changed={lib}/libivy_files_c.a");
    println!("cargo:rerun-if-env-changed=IVY_LIBRARY");
}
