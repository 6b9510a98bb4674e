//! Links `libtebaldi.a`: from the folder that `TEBALDI_LIB_DIR` names, or from `bindings/out`, where `./check bindings` puts it.

fn main() {
    let folder = std::env::var("TEBALDI_LIB_DIR")
        .unwrap_or_else(|_| concat!(env!("CARGO_MANIFEST_DIR"), "/../out").to_string());
    println!("cargo:rerun-if-env-changed=TEBALDI_LIB_DIR");
    println!("cargo:rerun-if-changed={folder}/libtebaldi.a");
    println!("cargo:rustc-link-search=native={folder}");
    println!("cargo:rustc-link-lib=static=tebaldi");
}
