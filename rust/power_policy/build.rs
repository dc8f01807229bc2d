//! Links libpower_policy.a from the folder POWER_POLICY_LIB, by default target/staticlib at the root of the repository. Where the archive is not
//! there, or cannot be linked into what is built, it says so in one line.

use std::{env, path::PathBuf};

/// What the archive is built for: architecture, system and width of a pointer.
const BUILT_FOR: [&str; 3] = ["x86_64", "linux", "64"];

fn main() {
    println!("cargo::rerun-if-changed=build.rs");
    println!("cargo::rerun-if-env-changed=POWER_POLICY_LIB");
    match folder() {
        Ok(folder) => {
            println!("cargo::rustc-link-search=native={}", folder.display());
            println!("cargo::rustc-link-lib=static=power_policy");
        }
        Err(missing) => println!("cargo::error={missing}"),
    }
}

/// The folder of the archive, or what is missing.
fn folder() -> Result<PathBuf, String> {
    let target = ["ARCH", "OS", "POINTER_WIDTH"]
        .map(|part| env::var(format!("CARGO_CFG_TARGET_{part}")).unwrap_or_default());
    if target != BUILT_FOR {
        let target = env::var("TARGET").unwrap_or_default();
        return Err(format!(
            "libpower_policy.a is for x86-64 Linux, and this is built for {target}"
        ));
    }
    let folder = env::var_os("POWER_POLICY_LIB").map_or_else(
        || PathBuf::from(env!("CARGO_MANIFEST_DIR")).join("../../target/staticlib"),
        PathBuf::from,
    );
    let archive = folder.join("libpower_policy.a");
    println!("cargo::rerun-if-changed={}", archive.display());
    if archive.is_file() {
        return Ok(folder);
    }
    Err(format!(
        "{} is not there: write it with `sh tests/built.sh power_policy`, or set POWER_POLICY_LIB to the folder that has it",
        archive.display()
    ))
}
