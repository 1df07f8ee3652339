//! C programs, built with the header and the library, and run.
use std::env;
use std::path::{Path, PathBuf};
use std::process::Command;

/// How the examples are compiled, by examples/c.
pub const FLAGS: [&str; 5] = ["-O2", "-std=c11", "-Wall", "-Wextra", "-pedantic"];

pub struct Ran {
    /// Whether its exit status is 0.
    pub good: bool,
    pub out: String,
    pub err: String,
}

/// Builds a program under a name of its own and runs it.
pub fn run(name: &str, source: &str, flags: &[&str]) -> Ran {
    ran(&mut Command::new(built(name, source, flags)))
}

/// Builds a program under a name of its own.
pub fn built(name: &str, source: &str, flags: &[&str]) -> PathBuf {
    let root = Path::new(env!("CARGO_MANIFEST_DIR")).join("..");
    let program = Path::new(env!("CARGO_TARGET_TMPDIR")).join(name);
    let text = program.with_extension("c");
    std::fs::write(&text, source).expect("a file of the target folder");
    let compiler = env::var("CC").unwrap_or_else(|_| "cc".to_string());
    let built = Command::new(compiler)
        .args(flags)
        .arg("-I")
        .arg(root.join("include"))
        .arg("-o")
        .args([&program, &text, &library(&root)])
        .arg("-lm")
        .output()
        .expect("a C compiler");
    assert!(built.status.success(), "{name}: {}", String::from_utf8_lossy(&built.stderr));
    program
}

/// Runs a program.
pub fn ran(command: &mut Command) -> Ran {
    let ran = command.output().expect("the program");
    let words = |bytes: &[u8]| String::from_utf8_lossy(bytes).into_owned();
    Ran { good: ran.status.success(), out: words(&ran.stdout), err: words(&ran.stderr) }
}

/// The library that the build script links, too.
fn library(root: &Path) -> PathBuf {
    let folder = match env::var_os("EVINDRAST_LIB_DIR").filter(|named| !named.is_empty()) {
        Some(named) => Path::new(&env::var_os("PWD").unwrap_or_default()).join(named),
        None => root.join("target/library"),
    };
    let library = folder.join("libevindrast.a");
    assert!(library.is_file(), "there is no {}: run bin/library", library.display());
    library
}
