//! Links libhumtrellis.a: of the folder that HUMTRELLIS_LIB_DIR names, else of target/package of the repository that this crate lies in, else of what pkg-config finds.

use std::path::{Path, PathBuf};
use std::process::{exit, Command};

const ARCHIVE: &str = "libhumtrellis.a";

/// The folder of the installed library of this version, or what pkg-config says.
fn installed() -> Result<PathBuf, String> {
    let wanted = format!("humtrellis = {}", env!("CARGO_PKG_VERSION_MAJOR"));
    let ran = Command::new("pkg-config")
        .args(["--print-errors", "--variable=libdir", &wanted])
        .output()
        .map_err(|error| format!("pkg-config: {error}"))?;
    let text = |bytes| String::from_utf8_lossy(bytes).trim().to_string();
    match ran.status.success() {
        true => Ok(PathBuf::from(text(&ran.stdout))),
        false => Err(text(&ran.stderr)),
    }
}

fn folder(built: &Path) -> Result<PathBuf, String> {
    match std::env::var_os("HUMTRELLIS_LIB_DIR").map(PathBuf::from) {
        // Cargo builds in another folder than the one that a relative path was meant from.
        Some(named) if named.is_relative() => Err(format!(
            "HUMTRELLIS_LIB_DIR is {}, which does not begin at the root",
            named.display()
        )),
        Some(named) => Ok(named),
        None if built.join(ARCHIVE).is_file() => Ok(built.to_path_buf()),
        None => installed(),
    }
}

fn main() {
    let built = Path::new(env!("CARGO_MANIFEST_DIR")).join("../../target/package");
    println!("cargo:rerun-if-env-changed=HUMTRELLIS_LIB_DIR");
    println!("cargo:rerun-if-env-changed=PKG_CONFIG_PATH");
    println!("cargo:rerun-if-changed={}", built.join(ARCHIVE).display());
    let found = folder(&built).and_then(|folder| match folder.join(ARCHIVE).is_file() {
        true => Ok(folder),
        false => Err(format!("{} is missing", folder.join(ARCHIVE).display())),
    });
    match found {
        Ok(folder) => {
            println!("cargo:rerun-if-changed={}", folder.join(ARCHIVE).display());
            println!("cargo:rustc-link-search=native={}", folder.display());
            println!("cargo:rustc-link-lib=static=humtrellis");
        }
        Err(error) => {
            eprintln!(
                "the library was not found: {error}. It is looked for in the folder that HUMTRELLIS_LIB_DIR names, else in {} (`make` makes it), else through pkg-config",
                built.display()
            );
            exit(1);
        }
    }
}
