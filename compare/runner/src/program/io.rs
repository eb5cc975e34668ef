//! `paths-io`: the program `paths` where reads and writes fail. What could not be read whole is refused by 14, as the model has it.

use super::{bytes_of, Folder};
use crate::answers::{Tally, Verdict};
use model::input::log10_column;
use model::program::output;
use std::fs::{self, File};
use std::io::Write;
use std::os::fd::OwnedFd;
use std::os::unix::fs::symlink;
use std::os::unix::net::UnixStream;
use std::path::PathBuf;
use std::process::{Command, Output, Stdio};

const SHIM: &str = include_str!("../../shim/reads.c");
const FULL: &str = "/dev/full";
const MOST_TEXT: usize = 8192;
const MOST_COLUMN: usize = 4096;

/// Case 6 of 01.
const TEXT: &[u8] = b"3 10 5 5 0\nCAACTGG\nCAAGTGG\nIIIIIII\nCAACTGG\nIIIIIII\n";

/// The program, the folder that it runs in, and the verdicts.
struct Trial {
    binary: PathBuf,
    folder: Folder,
    tally: Tally,
}

/// True where nothing failed.
pub fn run(binary: &str) -> Result<bool, String> {
    let binary = fs::canonicalize(binary).map_err(|e| format!("{binary}: {e}"))?;
    let mut trial = Trial { binary, folder: Folder::new("paths-io")?, tally: Tally::default() };
    all(&mut trial).map_err(|e| e.to_string())?;
    println!("{} passed, {} failed", trial.tally.passed, trial.tally.failed);
    Ok(trial.tally.failed == 0)
}

fn all(trial: &mut Trial) -> std::io::Result<()> {
    let column = bytes_of(&log10_column(MOST_COLUMN / 8));
    let long = filled(MOST_TEXT);
    trial.store_column(&column)?;
    plain(trial, &column)?;
    inputs(trial, &column)?;
    for text in [TEXT, &long] {
        streams(trial, text, &column)?;
        lengths_read(trial, text, &column)?;
    }
    every_read(trial, TEXT, &column, 4096)?;
    every_read(trial, TEXT, &column, 16)?;
    every_read(trial, &long, &column, 1 << 20)?;
    every_read(trial, &long, &column, 1000)?;
    outputs(trial)?;
    columns(trial, &column)
}

impl Trial {
    fn path(&self, name: &str) -> PathBuf {
        self.folder.0.join(name)
    }

    fn store_column(&self, bytes: &[u8]) -> std::io::Result<()> {
        fs::write(self.path("column.f64"), bytes)
    }

    /// A file with these bytes, opened for reading.
    fn file(&self, bytes: &[u8]) -> std::io::Result<File> {
        let path = self.path("input");
        fs::write(&path, bytes)?;
        File::open(path)
    }

    fn command(&self) -> Command {
        let mut command = Command::new(&self.binary);
        command.current_dir(&self.folder.0);
        command
    }

    /// The program run by a shell, which closes or opens descriptors as told.
    fn shell(&self, descriptors: &str) -> Command {
        let mut command = Command::new("sh");
        command.arg("-c").arg(format!("exec \"$0\" {descriptors}")).arg(&self.binary).current_dir(&self.folder.0).stdin(Stdio::null());
        command
    }

    /// What the program prints must be what is expected, and standard error empty.
    fn prints(&mut self, name: String, command: &mut Command, expected: &str) {
        let verdict = ended(command).map_or_else(Verdict::Failed, |done| Verdict::equal(&said(&done), &(expected.into(), String::new())));
        self.tally.add(verdict, || name);
    }

    /// What could not be written must be told in one line on standard error.
    fn tells(&mut self, name: &str, command: &mut Command) {
        let verdict = ended(command).map_or_else(Verdict::Failed, |done| {
            let (printed, told) = said(&done);
            let line = told.len() > 1 && told.ends_with('\n') && told.lines().count() == 1;
            if printed.is_empty() && line {
                Verdict::Passed
            } else {
                Verdict::Failed(format!("printed {printed:?}, told {told:?}"))
            }
        });
        self.tally.add(verdict, || name.into());
    }
}

fn ended(command: &mut Command) -> Result<Output, String> {
    let done = command.output().map_err(|e| e.to_string())?;
    if done.status.success() {
        Ok(done)
    } else {
        Err(format!("ended with {}", done.status))
    }
}

fn said(done: &Output) -> (String, String) {
    (String::from_utf8_lossy(&done.stdout).into(), String::from_utf8_lossy(&done.stderr).into())
}

/// A text of this length that is accepted: reads of the whole reference, and one of what is left.
fn filled(length: usize) -> Vec<u8> {
    let reference = b"ACGTTGCAAGCTAGGTCATCCGATTACAGGC";
    let mut text = [b"5 10 8 2 0\n", &reference[..], b"\n"].concat();
    if (length - text.len()) % 2 == 1 {
        text.insert(0, b'0');
    }
    while text.len() < length {
        let bases = reference.len().min((length - text.len()) / 2 - 1);
        text.extend([&reference[..bases], b"\n", &vec![b'I'; bases], b"\n"].concat());
    }
    text
}

/// Where nothing fails; also the texts about the greatest length, of which the longest accepted must be accepted.
fn plain(trial: &mut Trial, column: &[u8]) -> std::io::Result<()> {
    for length in [MOST_TEXT - 1, MOST_TEXT, MOST_TEXT + 1] {
        let text = filled(length);
        let expected = output(Some(&text), Some(column));
        assert!(text.len() == length && expected.starts_with("paths ") == (length <= MOST_TEXT));
        let file = trial.file(&text)?;
        trial.prints(format!("a text of {length} bytes"), trial.command().stdin(file), &expected);
    }
    let file = trial.file(TEXT)?;
    trial.prints("case 6".into(), trial.command().stdin(file), &output(Some(TEXT), Some(column)));
    Ok(())
}

/// Standard input that can't be read at all.
fn inputs(trial: &mut Trial, column: &[u8]) -> std::io::Result<()> {
    let expected = output(None, Some(column));
    trial.prints("standard input closed".into(), &mut trial.shell("<&-"), &expected);
    let folder = File::open(&trial.folder.0)?;
    trial.prints("standard input a folder".into(), trial.command().stdin(folder), &expected);
    let unreadable = File::create(trial.path("unreadable"))?;
    trial.prints("standard input for writing only".into(), trial.command().stdin(unreadable), &expected);
    Ok(())
}

/// A stream that gives whole lines and then ends, or fails: its other end is closed with a byte unread.
fn streams(trial: &mut Trial, text: &[u8], column: &[u8]) -> std::io::Result<()> {
    let lines = (0..text.len()).filter(|&i| text[i] == b'\n').map(|i| i + 1);
    let cuts: Vec<usize> = if text.len() < 100 { lines.collect() } else { lines.skip(1).step_by(40).chain([text.len()]).collect() };
    for cut in cuts {
        for fails in [false, true] {
            let (mut here, mut there) = UnixStream::pair()?;
            here.write_all(&text[..cut])?;
            if fails {
                there.write_all(b"?")?;
            }
            drop(here);
            let read = if fails { None } else { Some(&text[..cut]) };
            let name = format!("a stream of {cut} bytes that {}", if fails { "fails" } else { "ends" });
            trial.prints(name, trial.command().stdin(Stdio::from(OwnedFd::from(there))), &output(read, Some(column)));
        }
    }
    Ok(())
}

/// The shim before C's `read`, made in the trial's folder.
fn shim(trial: &Trial) -> std::io::Result<PathBuf> {
    let (source, library) = (trial.path("reads.c"), trial.path("reads.so"));
    if !library.exists() {
        fs::write(&source, SHIM)?;
        let made = Command::new("cc").args(["-shared", "-fPIC", "-O1", "-o"]).arg(&library).arg(&source).stdin(Stdio::null()).status()?;
        if !made.success() {
            return Err(std::io::Error::other("cc could not make the shim"));
        }
    }
    Ok(library)
}

/// The program behind the shim, on a text.
fn shimmed(trial: &Trial, text: &[u8], most: usize, fails: usize) -> std::io::Result<Command> {
    let mut command = trial.command();
    command.env("LD_PRELOAD", shim(trial)?).env("READS_MOST", most.to_string()).env("READS_FAIL", fails.to_string());
    command.stdin(trial.file(text)?);
    Ok(command)
}

/// Reads that hand out few bytes change nothing.
fn lengths_read(trial: &mut Trial, text: &[u8], column: &[u8]) -> std::io::Result<()> {
    let expected = output(Some(text), Some(column));
    for most in [1, 7, 512, MOST_TEXT - 1] {
        let mut command = shimmed(trial, text, most, 0)?;
        trial.prints(format!("reads of {most} bytes"), &mut command, &expected);
    }
    Ok(())
}

/// Each read in turn fails; the one behind the last does not come.
fn every_read(trial: &mut Trial, text: &[u8], column: &[u8], most: usize) -> std::io::Result<()> {
    let reads = column.len().div_ceil(most.min(MOST_TEXT)) + 1 + text.len().div_ceil(most.min(MOST_TEXT)) + 1;
    for fails in 1..=reads + 1 {
        let read = if fails <= reads { None } else { Some(text) };
        let mut command = shimmed(trial, text, most, fails)?;
        let name = format!("read {fails} of {reads} fails, of at most {most} bytes");
        trial.prints(name, &mut command, &output(read, Some(column)));
    }
    Ok(())
}

/// Standard output that can't be written.
fn outputs(trial: &mut Trial) -> std::io::Result<()> {
    trial.file(TEXT)?;
    match File::options().write(true).open(FULL) {
        Err(why) => trial.tally.add(Verdict::Failed(why.to_string()), || FULL.into()),
        Ok(_) => {
            trial.tells("standard output full", &mut trial.shell(&format!("<input >{FULL}")));
            let mut both = trial.shell(&format!("<input >{FULL} 2>&1"));
            trial.prints("standard output and standard error full".into(), &mut both, "");
        }
    }
    trial.tells("standard output closed", &mut trial.shell("<input >&-"));
    trial.tells("standard input and output closed", &mut trial.shell("<&- >&-"));
    Ok(())
}

/// The column file, last, since it is put away.
fn columns(trial: &mut Trial, column: &[u8]) -> std::io::Result<()> {
    let path = trial.path("column.f64");
    for length in [0, 8, 16, MOST_COLUMN, MOST_COLUMN + 1, MOST_COLUMN + 8, MOST_TEXT, MOST_TEXT + 1] {
        let bytes: Vec<u8> = column.iter().copied().cycle().take(length).collect();
        trial.store_column(&bytes)?;
        one_column(trial, format!("a column file of {length} bytes"), Some(&bytes))?;
    }
    fs::rename(&path, trial.path("elsewhere"))?;
    one_column(trial, "no column file".into(), None)?;
    symlink("nowhere", &path)?;
    one_column(trial, "a column file that is a link to nothing".into(), None)?;
    fs::remove_file(&path)?;
    fs::create_dir(&path)?;
    one_column(trial, "a column file that is a folder".into(), None)
}

fn one_column(trial: &mut Trial, name: String, column: Option<&[u8]>) -> std::io::Result<()> {
    let file = trial.file(TEXT)?;
    trial.prints(name, trial.command().stdin(file), &output(Some(TEXT), column));
    Ok(())
}
