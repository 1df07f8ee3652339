//! Links the library that `bin/library` proves and writes.
use std::env;
use std::path::{Path, PathBuf};

/// The folder that cargo was called from: it runs this program in the package's own. Linux shows it, and shells name it in PWD.
fn callers_folder() -> PathBuf {
    #[cfg(unix)]
    let shown =
        std::fs::read_link(format!("/proc/{}/cwd", std::os::unix::process::parent_id())).ok();
    #[cfg(not(unix))]
    let shown = None;
    shown.or_else(|| env::var_os("PWD").map(PathBuf::from)).unwrap_or_default()
}

fn main() {
    println!("cargo:rerun-if-env-changed=EVINDRAST_LIB_DIR");
    let named = env::var_os("EVINDRAST_LIB_DIR").filter(|named| !named.is_empty());
    let folder = match &named {
        Some(named) if Path::new(named).is_relative() => {
            println!("cargo:rerun-if-env-changed=PWD");
            callers_folder().join(named)
        }
        Some(named) => PathBuf::from(named),
        None => Path::new(env!("CARGO_MANIFEST_DIR")).with_file_name("target/library"),
    };
    let library = folder.join("libevindrast.a");
    if !library.is_file() {
        eprintln!(
            "There is no {}{}.\nRun `bin/library` of the repository (it proves and writes the library), \
             or set EVINDRAST_LIB_DIR to a folder that has libevindrast.a.",
            library.display(),
            if named.is_some() { ", where EVINDRAST_LIB_DIR points" } else { "" }
        );
        std::process::exit(1);
    }
    println!("cargo:rerun-if-changed={}", library.display());
    println!("cargo:rustc-link-search=native={}", folder.display());
    println!("cargo:rustc-link-lib=static=evindrast");
}
