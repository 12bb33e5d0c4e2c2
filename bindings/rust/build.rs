// Makes the proved archive by tools/archive and links it. FESOLOPI_ARCHIVE may name the folder of an archive
// that was made before, by its whole path: the kit is then not needed.
use std::env;
use std::path::{Path, PathBuf};
use std::process::Command;

fn main() {
    println!("cargo:rerun-if-env-changed=FESOLOPI_ARCHIVE");
    let folder = match env::var_os("FESOLOPI_ARCHIVE") {
        Some(folder) => PathBuf::from(folder),
        None => made(),
    };
    let archive = folder.join("libfesolopi.a");
    if !archive.is_file() {
        fail(&format!("there is no {}", archive.display()));
    }
    println!("cargo:rerun-if-changed={}", archive.display());
    println!("cargo:rustc-link-search=native={}", folder.display());
    println!("cargo:rustc-link-lib=static=fesolopi");
    // where the tests of the header find it
    println!("cargo:rustc-env=FESOLOPI_FOLDER={}", folder.display());
}

/// Runs tools/archive, and says where the archive is.
fn made() -> PathBuf {
    let root = Path::new(env!("CARGO_MANIFEST_DIR")).join("../..");
    for part in ["crates", "crates.txt", "tools/archive"] {
        println!("cargo:rerun-if-changed={}", root.join(part).display());
    }
    if !on_path("rt") {
        fail("the Rattle kit's rt is not on the PATH. Put it there, or name the folder of an archive that was made before by FESOLOPI_ARCHIVE");
    }
    match Command::new(root.join("tools/archive")).output() {
        Ok(told) if told.status.success() => {}
        Ok(told) => fail(&format!(
            "tools/archive failed ({}):\n{}{}",
            told.status,
            String::from_utf8_lossy(&told.stdout),
            String::from_utf8_lossy(&told.stderr)
        )),
        Err(error) => fail(&format!("tools/archive could not be run: {error}")),
    }
    root.join("target/staticlib")
}

fn on_path(program: &str) -> bool {
    let path = env::var_os("PATH").unwrap_or_default();
    env::split_paths(&path).any(|folder| folder.join(program).is_file())
}

/// Ends the build with a sentence and no backtrace.
fn fail(why: &str) -> ! {
    eprintln!("fesolopi: {why}");
    std::process::exit(1)
}
