//! Links the proved library, which lies with the kit's C code in the folder that `LIO_LIBRARIES` names (`tools/bindings` makes it).

fn main() {
    println!("cargo:rerun-if-env-changed=LIO_LIBRARIES");
    let folder = std::env::var("LIO_LIBRARIES").expect("LIO_LIBRARIES names the folder with liblio_c.a and liblibc_c.a");
    println!("cargo:rustc-link-search=native={folder}");
    println!("cargo:rustc-link-lib=static=lio_c");
    println!("cargo:rustc-link-lib=static=libc_c");
}
