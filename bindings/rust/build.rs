//! Links libexports.a, the archive of the C functions, and tells the crate what the compiler's own library has.
//! The variable SIMMERPATH_ARCHIVES names another folder for the archive, as seen from here.

use std::env;
use std::path::{Path, PathBuf};
use std::process::Command;

/// What is used where the library has it: its name as a cfg, and the Rust 1.x that it came with.
const SINCE: [(&str, u32); 2] = [("is_terminal", 70), ("core_error", 81)];

/// The first Rust 1.x that has to be told of every cfg.
const CHECKS_CFGS: u32 = 80;

fn main() {
    println!("cargo:rerun-if-changed=build.rs");
    link();
    let minor = compiler();
    for (name, since) in SINCE {
        if minor >= CHECKS_CFGS {
            println!("cargo:rustc-check-cfg=cfg({name})");
        }
        if minor >= since {
            println!("cargo:rustc-cfg={name}");
        }
    }
}

/// Links the archive into the crate.
fn link() {
    let (folder, command) = archives();
    let archive = folder.join("libexports.a");
    assert!(
        archive.is_file(),
        "{} is not there: run `{command}` in the root of Simmerpath, or name the folder of libexports.a in SIMMERPATH_ARCHIVES",
        archive.display()
    );
    println!("cargo:rerun-if-changed={}", archive.display());
    println!("cargo:rustc-link-search=native={}", folder.display());
    println!("cargo:rustc-link-lib=static=exports");
}

/// The folder of the archive, and the command that makes it.
fn archives() -> (PathBuf, String) {
    let processor = variable("CARGO_CFG_TARGET_ARCH");
    let (folder, command) = match &*processor {
        "x86_64" => (
            "../../crates/exports/out".into(),
            "cd crates/exports && rt lib --cpu x86-64".into(),
        ),
        other => (
            format!("../../target/{other}"),
            format!("tools/native-archive exports {other}"),
        ),
    };
    println!("cargo:rerun-if-env-changed=SIMMERPATH_ARCHIVES");
    let named = env::var_os("SIMMERPATH_ARCHIVES").map(PathBuf::from);
    let folder = named.unwrap_or_else(|| folder.into());
    (
        Path::new(&variable("CARGO_MANIFEST_DIR")).join(folder),
        command,
    )
}

/// The x of the compiler's version 1.x.
fn compiler() -> u32 {
    let asked = Command::new(variable("RUSTC")).arg("--version").output();
    let said = asked.expect("the compiler says its version").stdout;
    let version = String::from_utf8_lossy(&said);
    let minor = version.split('.').nth(1);
    minor
        .and_then(|minor| minor.parse().ok())
        .expect("a version is 1.x")
}

/// What cargo says in a variable.
fn variable(name: &str) -> String {
    env::var(name).unwrap_or_else(|_| panic!("cargo sets {name}"))
}
