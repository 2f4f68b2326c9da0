//! Says where libprint1525 is: in the folder that PRINT1525_LIB_DIR names, or else where pkg-config says.
use std::process::Command;

fn main() {
    println!("cargo:rerun-if-env-changed=PRINT1525_LIB_DIR");
    println!("cargo:rerun-if-env-changed=PKG_CONFIG_PATH");
    let folder = std::env::var("PRINT1525_LIB_DIR").ok().or_else(installed);
    if let Some(folder) = folder {
        println!("cargo:rustc-link-search=native={folder}");
    }
    let kind = if std::env::var_os("CARGO_FEATURE_SHARED").is_some() { "dylib" } else { "static" };
    println!("cargo:rustc-link-lib={kind}=print1525");
}

/// The folder of the library that `make install` has told pkg-config of.
fn installed() -> Option<String> {
    let said = Command::new("pkg-config").args(["--variable=libdir", "print1525"]).output().ok()?;
    let folder = String::from_utf8(said.stdout).ok()?.trim().to_string();
    Some(folder).filter(|it| said.status.success() && !it.is_empty())
}
