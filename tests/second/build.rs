//! With the feature `host`: where the static library of the C exports is.

fn main() {
    println!("cargo:rerun-if-changed=build.rs");
    if std::env::var_os("CARGO_FEATURE_HOST").is_none() {
        return;
    }
    println!("cargo:rerun-if-env-changed=STATICLIB");
    let root = std::env::var("CARGO_MANIFEST_DIR").unwrap_or_default();
    let place = std::env::var("STATICLIB").unwrap_or(format!("{root}/../../target/staticlib"));
    println!("cargo:rerun-if-changed={place}/libhost.a");
    println!("cargo:rustc-link-search=native={place}");
}
