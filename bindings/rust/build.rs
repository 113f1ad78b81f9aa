//! Links libavcdec.a: of the folder AVCDEC_LIB_DIR, or where pkg-config finds it. Where it is not, it says what to set.

use std::env;
use std::path::Path;
use std::process::{exit, Command};

fn main() {
    println!("cargo:rerun-if-env-changed=AVCDEC_LIB_DIR");
    println!("cargo:rerun-if-env-changed=PKG_CONFIG_PATH");
    match folder() {
        Ok(folder) => {
            println!("cargo:rustc-link-search=native={folder}");
            println!("cargo:rerun-if-changed={folder}/libavcdec.a");
            println!("cargo:rustc-link-lib=static=avcdec");
        }
        Err(reason) => {
            eprintln!("libavcdec.a is not found: {reason}.");
            eprintln!("`scripts/install.sh PREFIX` in the repository of avcdec installs it, as a release or the package libavcdec-dev does. Then set");
            eprintln!("    AVCDEC_LIB_DIR=PREFIX/lib");
            eprintln!("or, where pkg-config is there,");
            eprintln!("    PKG_CONFIG_PATH=PREFIX/lib/pkgconfig");
            exit(1)
        }
    }
}

// where the library lies, or why that is not known
fn folder() -> Result<String, String> {
    let (folder, by) = match env::var("AVCDEC_LIB_DIR") {
        Ok(folder) => (folder, "AVCDEC_LIB_DIR"),
        Err(_) => (found_by_pkg_config()?, "pkg-config"),
    };
    if Path::new(&folder).join("libavcdec.a").is_file() {
        Ok(folder)
    } else {
        Err(format!("{by} names the folder '{folder}', where it is not"))
    }
}

fn found_by_pkg_config() -> Result<String, String> {
    let answer = Command::new("pkg-config")
        .args(["--variable=libdir", "avcdec"])
        .output()
        .map_err(|_| "AVCDEC_LIB_DIR is not set, and there is no pkg-config".to_string())?;
    let folder = String::from_utf8_lossy(&answer.stdout).trim().to_string();
    if folder.is_empty() {
        return Err("AVCDEC_LIB_DIR is not set, and pkg-config knows no avcdec".into());
    }
    Ok(folder)
}
