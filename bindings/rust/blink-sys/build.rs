//! Where libblink.a is: below `BLINK_PREFIX`, a folder that `./install` has filled; below the folder where this crate was put by
//! that; or where pkg-config says.
use std::path::Path;
use std::process::{exit, Command};

fn main() {
    println!("cargo:rerun-if-env-changed=BLINK_PREFIX");
    let folder = match std::env::var("BLINK_PREFIX") {
        Ok(prefix) => format!("{}/lib", prefix),
        Err(_) => beside().or_else(asked).unwrap_or_else(|| fail(UNKNOWN)),
    };
    let archive = Path::new(&folder).join("libblink.a");
    if !archive.exists() {
        fail(&format!(
            "there is no {}: run ./install --library PREFIX and set BLINK_PREFIX to that PREFIX",
            archive.display()
        ));
    }
    println!("cargo:rerun-if-changed={}", archive.display());
    println!("cargo:rustc-link-search=native={}", folder);
    println!("cargo:rustc-link-lib=static=blink");
}

const UNKNOWN: &str =
    "pkg-config is not there or knows no blink: install it, or set BLINK_PREFIX to where ./install has put it";

/// The folder of the library where this crate stands in share/blink/rust below the same folder.
fn beside() -> Option<String> {
    let folder = Path::new(&std::env::var("CARGO_MANIFEST_DIR").ok()?).ancestors().nth(4)?.join("lib");
    Some(folder.to_str()?.to_string()).filter(|_| folder.join("libblink.a").exists())
}

/// The folder of the installed library, by pkg-config.
fn asked() -> Option<String> {
    let said = Command::new("pkg-config").args(["--variable=libdir", "blink"]).output().ok()?;
    Some(String::from_utf8_lossy(&said.stdout).trim().to_string()).filter(|_| said.status.success())
}

fn fail(why: &str) -> ! {
    eprintln!("blink-sys: {}", why);
    exit(1)
}
