//! Where the static library of the proved calls is.

fn main() {
    println!("cargo:rerun-if-changed=build.rs");
    println!("cargo:rerun-if-env-changed=STATICLIB");
    let root = std::env::var("CARGO_MANIFEST_DIR").unwrap_or_default();
    let place = std::env::var("STATICLIB").unwrap_or(format!("{root}/../target/staticlib"));
    println!("cargo:rerun-if-changed={place}/libmeter.a");
    println!("cargo:rustc-link-search=native={place}");
}
