// The files that a command leaves below its folder.
use std::fs;
use std::path::Path;

/// Writes a file, its folder first where there is none.
pub fn write(folder: &str, name: &str, bytes: impl AsRef<[u8]>) -> Result<(), String> {
    let path = Path::new(folder).join(name);
    let within = path.parent().unwrap_or(Path::new(folder));
    fs::create_dir_all(within)
        .and_then(|()| fs::write(&path, bytes))
        .map_err(|e| format!("{}: {e}", path.display()))
}
