//! Says where the crate promql is, which is built apart: the compiler looks there for it, and for what it leans on.

use std::env;
use std::path::Path;

fn main() {
    println!("cargo:rerun-if-changed=build.rs");
    if env::var_os("CARGO_FEATURE_PROMQL").is_none() {
        return;
    }
    let built = Path::new(env!("CARGO_MANIFEST_DIR")).join("../target/promql/release");
    for (kind, folder) in [("crate", built.clone()), ("dependency", built.join("deps"))] {
        println!("cargo:rustc-link-search={kind}={}", folder.display());
    }
    let library = built.join("libpromql.rlib");
    println!("cargo:rerun-if-changed={}", library.display());
}
