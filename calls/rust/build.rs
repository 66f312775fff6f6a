//! Finds the proved library and has it linked. It lies in the folder that `DESK_LIB_DIR` names, or where
//! `scripts/library` puts it; without it there is nothing to call, so the build ends with a word on how to make it.

use std::path::{Path, PathBuf};

fn main() {
    println!("cargo:rerun-if-env-changed=DESK_LIB_DIR");
    let folder = match std::env::var_os("DESK_LIB_DIR") {
        Some(named) if !named.is_empty() => from_the_caller(Path::new(&named)),
        _ => Path::new(env!("CARGO_MANIFEST_DIR")).join("../../target/library"),
    };
    let library = folder.join("libdeskplan.a");
    // A library made anew under the same name is linked anew.
    println!("cargo:rerun-if-changed={}", library.display());
    if !library.is_file() {
        eprintln!("{} is not there: make it by `scripts/library`,", library.display());
        eprintln!("or name the folder that has it in DESK_LIB_DIR.");
        std::process::exit(1);
    }
    println!("cargo:rustc-link-search=native={}", folder.display());
    println!("cargo:rustc-link-lib=static=deskplan");
}

/// A folder named from where cargo was called. A build script runs in the folder of its own package, but cargo, which
/// called it, and the shell that called cargo, stand where the person stood who typed the name; the folder of the
/// process above tells it. Where it cannot be read the name counts from this package.
fn from_the_caller(named: &Path) -> PathBuf {
    let above = std::fs::read_link(format!("/proc/{}/cwd", std::os::unix::process::parent_id()));
    above.or_else(|_| std::env::current_dir()).unwrap_or_default().join(named)
}
