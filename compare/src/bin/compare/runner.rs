//! Runs the program in a scratch folder and compares what it prints and leaves.

use std::fs::{self, File};
use std::io;
use std::path::{Path, PathBuf};
use std::process::{Command, Output};

use model::dock::{Files, Options};

use crate::script::Script;

/// A folder with the program's files, and what is known to be in it.
pub struct Runner {
    program: PathBuf,
    folder: PathBuf,
    on_disk: Files,
}

/// What the program did other than the model.
pub struct Difference {
    pub what: String,
    pub output: Output,
    pub left: Files,
}

impl Runner {
    pub fn new(program: &Path, folder: PathBuf) -> io::Result<Runner> {
        fs::create_dir_all(folder.join("files"))?;
        Ok(Runner { program: program.into(), folder, on_disk: Files::new() })
    }

    fn path(&self, name: &str) -> PathBuf {
        self.folder.join("files").join(name)
    }

    /// Makes the folder hold exactly these files.
    fn lay_out(&mut self, files: &Files) -> io::Result<()> {
        for name in self.on_disk.keys().filter(|name| !files.contains_key(*name)) {
            fs::remove_file(self.path(name))?;
        }
        for (name, bytes) in files {
            if self.on_disk.get(name) != Some(bytes) {
                fs::write(self.path(name), bytes)?;
            }
        }
        self.on_disk.clone_from(files);
        Ok(())
    }

    fn left(&self) -> io::Result<Files> {
        let mut left = Files::new();
        for entry in fs::read_dir(self.folder.join("files"))? {
            let entry = entry?;
            left.insert(entry.file_name().to_string_lossy().into(), fs::read(entry.path())?);
        }
        Ok(left)
    }

    /// Runs the script on `before`; the model says that `after` is left.
    pub fn compare(
        &mut self,
        options: &Options,
        script: &Script,
        before: &Files,
        after: &Files,
    ) -> io::Result<Option<Difference>> {
        self.lay_out(before)?;
        let input = self.folder.join("script");
        fs::write(&input, &script.text)?;
        let output = Command::new(&self.program)
            .args(options.arguments())
            .current_dir(self.folder.join("files"))
            .stdin(File::open(&input)?)
            .output()?;
        let left = self.left()?;
        let what = difference(script, &output, after, &left);
        self.on_disk.clone_from(&left);
        Ok(what.map(|what| Difference { what, output, left }))
    }
}

fn difference(script: &Script, output: &Output, after: &Files, left: &Files) -> Option<String> {
    difference_of_lines(&script.expected(), &String::from_utf8_lossy(&output.stdout))
        .or_else(|| difference_of_ending(script.malformed, output))
        .or_else(|| difference_of_files(after, left))
}

/// A whole script ends with status 0 and says nothing; a malformed line is named, and ends it with status 1.
fn difference_of_ending(malformed: Option<usize>, output: &Output) -> Option<String> {
    let said = String::from_utf8_lossy(&output.stderr);
    let right = match malformed {
        None => output.status.success() && said.is_empty(),
        Some(line) => {
            let named = said.contains(&format!("line {line}:"));
            output.status.code() == Some(1) && named && said.lines().count() == 1
        }
    };
    let wanted = malformed.map_or("none".into(), |line| line.to_string());
    (!right).then(|| {
        format!("malformed line: {wanted}; the program ended with {} and said: {said}", output.status)
    })
}

pub fn difference_of_lines(expected: &str, got: &str) -> Option<String> {
    if expected == got {
        return None;
    }
    let (mut wanted, mut found) = (expected.lines(), got.lines());
    for number in 1.. {
        let (want, find) = (wanted.next(), found.next());
        if want != find {
            let (want, find) = (want.unwrap_or("(no line)"), find.unwrap_or("(no line)"));
            let same = want.bytes().zip(find.bytes()).take_while(|(w, f)| w == f).count();
            let (want, find) = (around(want, same), around(find, same));
            return Some(format!("answer {number} differs\n  model:   {want}\n  program: {find}"));
        }
        if want.is_none() {
            break;
        }
    }
    Some("the line ends differ".into())
}

/// The line, or the part of a long line that lies around the byte `at`.
fn around(line: &str, at: usize) -> String {
    const SHOWN: usize = 160;
    if line.len() <= SHOWN || !line.is_ascii() {
        return line.into();
    }
    let start = at.saturating_sub(SHOWN / 2).min(line.len() - SHOWN);
    format!("… {} … (from letter {start} on)", &line[start..start + SHOWN])
}

fn difference_of_files(after: &Files, left: &Files) -> Option<String> {
    let names = after.keys().chain(left.keys().filter(|name| !after.contains_key(*name)));
    names.into_iter().find_map(|name| match (after.get(name), left.get(name)) {
        (Some(wanted), Some(found)) if wanted == found => None,
        (Some(wanted), Some(found)) => {
            let same = wanted.iter().zip(found).take_while(|(w, f)| w == f).count();
            let lengths = (wanted.len(), found.len());
            Some(format!("file {name} differs from byte {same} on (lengths {lengths:?}, model and program)"))
        }
        (Some(_), None) => Some(format!("file {name} is missing")),
        (None, _) => Some(format!("file {name} should not be there")),
    })
}
