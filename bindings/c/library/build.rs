//! Gives the shared library the name by which programs look for it.
use std::env::var;

fn main() {
    println!("cargo:rerun-if-changed=build.rs");
    let part = |name: &str| var(name).expect("cargo sets it");
    if part("CARGO_CFG_TARGET_OS") == "linux" {
        let (major, minor) = (
            part("CARGO_PKG_VERSION_MAJOR"),
            part("CARGO_PKG_VERSION_MINOR"),
        );
        println!("cargo:rustc-cdylib-link-arg=-Wl,-soname,libpardz.so.{major}.{minor}");
    }
}
