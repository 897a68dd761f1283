//! Links the crate with the system's OpenSSL (libcrypto) if the feature `openssl` is enabled.

fn main() {
    if std::env::var_os("CARGO_FEATURE_OPENSSL").is_some() {
        println!("cargo:rustc-link-lib=crypto");
    }
}
