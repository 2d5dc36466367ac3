//! Links `compare` with the library that CHIDUKWORE_LIB names. Without it `compare` has only `--self`.

fn main() {
    println!("cargo::rustc-check-cfg=cfg(proved)");
    println!("cargo::rerun-if-env-changed=CHIDUKWORE_LIB");
    let library = std::env::var("CHIDUKWORE_LIB").unwrap_or_default();
    if !library.is_empty() {
        println!("cargo::rerun-if-changed={library}");
        println!("cargo::rustc-cfg=proved");
        println!("cargo::rustc-link-arg-bin=compare={library}");
    }
}
