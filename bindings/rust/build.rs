//! Says where libexport.a is: the folder that VOTRIKANY_LIB names, by default the repository's crates/export/out.
//! `tools/build export` writes it there.
fn main() {
    let here = std::env::var("CARGO_MANIFEST_DIR").expect("cargo sets it");
    let folder =
        std::env::var("VOTRIKANY_LIB").unwrap_or(format!("{}/../../crates/export/out", here));
    println!("cargo:rerun-if-env-changed=VOTRIKANY_LIB");
    println!("cargo:rerun-if-changed={}/libexport.a", folder);
    println!("cargo:rustc-link-search=native={}", folder);
}
