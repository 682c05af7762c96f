// Finds the archive of the proved functions and links it; and asks the compiler whether it has `core::error`.
use std::env;
use std::path::PathBuf;
use std::process::Command;

const ARCHIVE: &str = "libptp.a";

fn main() {
    println!("cargo:rerun-if-env-changed=PTP_ARCHIVE_DIR");
    link_archive();
    tell_compiler();
}

// Where the archive is sought. A relative folder counts from the package: cargo does not tell from where it was called.
fn archive_folder() -> PathBuf {
    let package = PathBuf::from(env::var_os("CARGO_MANIFEST_DIR").expect("cargo says where the package is"));
    let named = env::var_os("PTP_ARCHIVE_DIR").filter(|folder| !folder.is_empty());
    package.join(named.unwrap_or_else(|| "../target/native".into()))
}

// Without the archive the crate can be checked and documented: what links it then says that `ptp` is missing, and here is said why.
fn link_archive() {
    let folder = archive_folder();
    let folder = match folder.join(ARCHIVE).canonicalize() {
        Ok(archive) => archive.parent().expect("an archive lies in a folder").to_path_buf(),
        Err(why) => {
            println!(
                "cargo:warning=no {} in {} ({}): check and doc work, but nothing links; `./ptp rust` makes it, PTP_ARCHIVE_DIR names another folder",
                ARCHIVE,
                folder.display(),
                why
            );
            folder
        }
    };
    println!("cargo:rerun-if-changed={}", folder.join(ARCHIVE).display());
    println!("cargo:rustc-link-search=native={}", folder.display());
    println!("cargo:rustc-link-lib=static=ptp");
}

// `core::error` is there from 1.81 on; names of cfgs are checked from 1.80 on.
fn tell_compiler() {
    let minor = minor_version().unwrap_or(0);
    if minor >= 80 {
        println!("cargo:rustc-check-cfg=cfg(core_error)");
    }
    if minor >= 81 {
        println!("cargo:rustc-cfg=core_error");
    }
}

// Of `rustc 1.63.0 ..`, 63.
fn minor_version() -> Option<u32> {
    let said = Command::new(env::var_os("RUSTC")?).arg("--version").output().ok()?.stdout;
    String::from_utf8(said).ok()?.split('.').nth(1)?.parse().ok()
}
