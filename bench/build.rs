//! For `slower`, which `bench/slower` builds: links its two copies of the
//! library.

fn main() {
    println!("cargo::rerun-if-changed=build.rs");
    if std::env::var_os("CARGO_FEATURE_SLOWER").is_none() {
        return;
    }
    let root = std::env::var("CARGO_MANIFEST_DIR").expect("cargo sets it");
    for copy in ["newer", "older"] {
        let library = format!("{root}/target/{copy}.a");
        println!("cargo::rustc-link-arg-bin=slower={library}");
        println!("cargo::rerun-if-changed={library}");
    }
}
