// Links crates/capi/out/libcapi.a of the repository.
fn main() {
    let out = std::path::Path::new(env!("CARGO_MANIFEST_DIR")).join("../crates/capi/out");
    println!("cargo:rustc-link-search=native={}", out.display());
    println!("cargo:rustc-link-lib=static=capi");
    println!("cargo:rerun-if-changed={}", out.join("libcapi.a").display());
}
