//! Saves a failure in a folder, with a command that runs the program on it again.

use std::fs;
use std::io;
use std::os::unix::fs::PermissionsExt;
use std::path::Path;

use model::dock::Files;

use crate::round::Failure;

const AGAIN: &str = r#"#!/usr/bin/env bash
# Runs the program on the saved files again, in a folder of its own, and shows where its answers
# (long ones cut) and its files differ from the model's.
set -uo pipefail
here="$(cd "$(dirname "$0")" && pwd)"
program="$(realpath "${1:?usage: again PROGRAM}")"
folder="$(mktemp -d)"
trap 'rm -rf "$folder"' EXIT
cp "$here"/before/* "$folder"
cd "$folder"
mapfile -t arguments < "$here/arguments"
"$program" "${arguments[@]}" < "$here/script" > "$folder.answers"
echo "status $?"
diff "$here/answers.model" "$folder.answers" > "$folder.diff" && echo "the answers agree"
cut -c 1-160 "$folder.diff"
for file in "$here"/after.model/*; do
    cmp "$file" "$(basename "$file")"
done
rm -f "$folder.answers" "$folder.diff"
"#;

/// Replaces `folder` by the failure.
pub fn save(folder: &Path, headline: &str, failure: &Failure) -> io::Result<()> {
    if folder.exists() {
        fs::remove_dir_all(folder)?;
    }
    fs::create_dir_all(folder)?;
    let difference = &failure.difference;
    fs::write(folder.join("what"), format!("{headline}\n{}\n", difference.what))?;
    fs::write(folder.join("arguments"), failure.options.arguments().join("\n") + "\n")?;
    fs::write(folder.join("script"), &failure.script.text)?;
    fs::write(folder.join("answers.model"), failure.script.expected())?;
    fs::write(folder.join("answers.program"), &difference.output.stdout)?;
    fs::write(folder.join("errors.program"), &difference.output.stderr)?;
    save_files(&folder.join("before"), &failure.before)?;
    save_files(&folder.join("after.model"), &failure.after)?;
    save_files(&folder.join("after.program"), &difference.left)?;
    let again = folder.join("again");
    fs::write(&again, AGAIN)?;
    fs::set_permissions(&again, fs::Permissions::from_mode(0o755))
}

fn save_files(folder: &Path, files: &Files) -> io::Result<()> {
    fs::create_dir_all(folder)?;
    files.iter().try_for_each(|(name, bytes)| fs::write(folder.join(name), bytes))
}
