//! `paths`: runs the program `paths` over files of input and output, each in a folder with its `column.f64`.

pub mod io;
pub mod random;

use crate::answers::{Tally, Verdict};
use std::fs::{self, File};
use std::path::{Path, PathBuf};
use std::process::{Command, Stdio};

/// What is run: the program, or the model's reading of it.
pub enum Program {
    Binary(PathBuf),
    Model,
}

impl Program {
    /// The program in a file, wherever it is run.
    pub fn binary(path: &str) -> Result<Self, String> {
        fs::canonicalize(path).map(Self::Binary).map_err(|e| format!("{path}: {e}"))
    }

    /// Its standard output, run in a folder on a file as standard input.
    fn output(&self, folder: &Path, input: &Path) -> Result<Vec<u8>, String> {
        match self {
            Self::Model => {
                let text = fs::read(input).ok();
                let column = fs::read(folder.join("column.f64")).ok();
                Ok(model::program::output(text.as_deref(), column.as_deref()).into_bytes())
            }
            Self::Binary(binary) => {
                let input = File::open(input).map_err(|e| e.to_string())?;
                let done = Command::new(binary).current_dir(folder).stdin(input).stderr(Stdio::null()).output().map_err(|e| e.to_string())?;
                if done.status.success() {
                    Ok(done.stdout)
                } else {
                    Err(format!("ended with {}", done.status))
                }
            }
        }
    }

    fn verdict(&self, folder: &Path, input: &Path, expected: &[u8]) -> Verdict {
        match self.output(folder, input) {
            Err(why) => Verdict::Failed(why),
            Ok(found) => Verdict::equal(&String::from_utf8_lossy(&found), &String::from_utf8_lossy(expected)),
        }
    }
}

/// A folder of its own for the files of a run, removed at its end.
struct Folder(PathBuf);

impl Folder {
    fn new(name: &str) -> Result<Self, String> {
        let path = std::env::temp_dir().join(format!("{name}-{}", std::process::id()));
        fs::create_dir_all(&path).map_err(|e| format!("{}: {e}", path.display()))?;
        Ok(Self(path))
    }
}

impl Drop for Folder {
    fn drop(&mut self) {
        let _ = fs::remove_dir_all(&self.0);
    }
}

/// A column as its file has it.
fn bytes_of(column: &[f64]) -> Vec<u8> {
    column.iter().flat_map(|x| x.to_le_bytes()).collect()
}

/// True where nothing failed.
pub fn run(program: &Program, folders: &[String]) -> Result<bool, String> {
    let mut tally = Tally::default();
    for folder in folders {
        for (folder, input, output) in cases(Path::new(folder))? {
            let expected = fs::read(&output).map_err(|e| format!("{}: {e}", output.display()))?;
            tally.add(program.verdict(&folder, &input, &expected), || input.display().to_string());
        }
    }
    println!("{} passed, {} failed", tally.passed, tally.failed);
    Ok(tally.failed == 0 && tally.passed > 0)
}

/// The cases of a folder, in order: `NAME.in` and `NAME.out` run in it, or folders of `in` and `out`, each run in its own.
fn cases(folder: &Path) -> Result<Vec<(PathBuf, PathBuf, PathBuf)>, String> {
    let entries = fs::read_dir(folder).map_err(|e| format!("{}: {e}", folder.display()))?;
    let mut entries: Vec<PathBuf> = entries.flatten().map(|entry| entry.path()).collect();
    entries.sort();
    let mut cases = Vec::new();
    for entry in entries {
        if entry.extension().is_some_and(|e| e == "in") {
            cases.push((folder.to_owned(), entry.clone(), entry.with_extension("out")));
        } else if entry.join("in").is_file() {
            cases.push((entry.clone(), entry.join("in"), entry.join("out")));
        }
    }
    Ok(cases)
}
