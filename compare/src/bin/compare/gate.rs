//! A script in the files from which the gate runs a program: words, input, data, and what must be printed.

use std::fs;
use std::io;
use std::path::Path;

use crate::round::First;

/// Replaces those files in the program's folder.
pub fn write(folder: &Path, first: &First) -> io::Result<()> {
    let data = folder.join("data");
    if data.exists() {
        fs::remove_dir_all(&data)?;
    }
    fs::create_dir_all(&data)?;
    for (name, bytes) in &first.before {
        fs::write(data.join(name), bytes)?;
    }
    fs::write(folder.join("args"), first.options.arguments().join("\n") + "\n")?;
    fs::write(folder.join("stdin"), &first.script.text)?;
    fs::write(folder.join("stdout"), first.script.expected())
}
