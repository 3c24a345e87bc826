//! Links the library for C, libracl.a: the archive that RACL_ARCHIVE names, or else the one that is installed, where pkg-config
//! says, or else the one that `make library` leaves in a checkout.
use std::env;
use std::path::{Path, PathBuf};
use std::process::Command;

fn installed() -> Option<PathBuf> {
    let told = Command::new("pkg-config").args(["--variable=libdir", "racl"]).output().ok()?;
    let folder = String::from_utf8(told.stdout).ok()?;
    Some(Path::new(folder.trim()).join("libracl.a")).filter(|it| told.status.success() && it.exists())
}

fn built() -> Option<PathBuf> {
    let own = PathBuf::from(env::var_os("CARGO_MANIFEST_DIR")?);
    Some(own.join("../../../out/library/libracl.a")).filter(|it| it.exists())
}

fn main() {
    let named = env::var_os("RACL_ARCHIVE").map(PathBuf::from);
    let archive = named.or_else(installed).or_else(built).expect("install libracl.a, or name it by RACL_ARCHIVE");
    let name = archive.file_stem().and_then(|it| it.to_str()).unwrap_or_default();
    let folder = archive.parent().unwrap_or(Path::new("."));
    println!("cargo:rustc-link-search=native={}", folder.display());
    println!("cargo:rustc-link-lib=static={}", name.strip_prefix("lib").unwrap_or(name));
    println!("cargo:rerun-if-changed={}", archive.display());
    println!("cargo:rerun-if-env-changed=RACL_ARCHIVE");
    println!("cargo:rerun-if-env-changed=PKG_CONFIG_PATH");
}
