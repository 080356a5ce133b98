//! Finds libcedar by pkg-config.
use std::process::Command;

fn main() {
    println!("cargo:rerun-if-env-changed=PKG_CONFIG_PATH");
    let found = Command::new("pkg-config").args(["--libs", "cedar"]).output().expect("pkg-config is wanted");
    assert!(found.status.success(), "pkg-config finds no cedar: {}", String::from_utf8_lossy(&found.stderr));
    for word in String::from_utf8(found.stdout).expect("paths are UTF-8").split_whitespace() {
        if let Some(folder) = word.strip_prefix("-L") {
            println!("cargo:rustc-link-search=native={folder}");
        } else if let Some(name) = word.strip_prefix("-l") {
            println!("cargo:rustc-link-lib={name}");
        }
    }
}
