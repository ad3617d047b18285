//! Links the proved library, which `tools/libcube` writes; or the copy of
//! it in the folder that CUBE_LIBRARY names.

fn main() {
    let root = std::path::Path::new(&std::env::var("CARGO_MANIFEST_DIR").expect("cargo sets it"))
        .join("../target/staticlib");
    let folder = std::env::var("CUBE_LIBRARY").map_or(root, std::path::PathBuf::from);
    println!("cargo:rustc-link-search=native={}", folder.display());
    println!("cargo:rustc-link-lib=static=cube");
    println!("cargo:rerun-if-changed={}", folder.join("libcube.a").display());
    println!("cargo:rerun-if-env-changed=CUBE_LIBRARY");
}
