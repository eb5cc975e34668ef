//! The comparison: vectors, random inputs and times, of the library, the original and the model.

mod allowance;
mod answers;
mod bench;
mod fuzz;
#[cfg(feature = "library")]
mod library;
mod program;
mod random;
mod subject;
mod vectors;

use std::process::ExitCode;

const USAGE: &str = "usage:
  run vectors [--model] FILE..          replay vectors through the library, or through the model
  run fuzz [--model] N SEED             N random inputs through library, original and model, or without the library
  run allowance [--model]               searches of many pushes, against the formula that they can't pass
  run bench [--original] [FILE..]       times of library and original, or of the original alone
  run paths BINARY|--model DIR..        run the program `paths` on files of input and output
  run paths-fuzz BINARY|--model N SEED  run it on N random and damaged inputs
  run paths-io BINARY                   run it where reads and writes fail
";

fn main() -> ExitCode {
    // The original's trees are nested and are dropped by recursion.
    let worker = std::thread::Builder::new().stack_size(1 << 30).spawn(|| {
        let args: Vec<String> = std::env::args().skip(1).collect();
        command(&args)
    });
    match worker.expect("a thread can be started").join() {
        Ok(Ok(true)) => ExitCode::SUCCESS,
        Ok(Ok(false)) => ExitCode::FAILURE,
        Ok(Err(why)) => {
            eprintln!("{why}");
            ExitCode::from(2)
        }
        Err(_) => ExitCode::from(3),
    }
}

/// True where all passed.
fn command(args: &[String]) -> Result<bool, String> {
    let words: Vec<&str> = args.iter().map(String::as_str).collect();
    match &words[..] {
        ["vectors", "--model", _, ..] => vectors::run(&mut subject::Model, &args[2..]),
        ["vectors", _, ..] => vectors::run(&mut *library()?, &args[1..]),
        ["fuzz", "--model", inputs, seed] => fuzz::run(None, number(inputs)?, number(seed)?),
        ["fuzz", inputs, seed] => fuzz::run(Some(library()?), number(inputs)?, number(seed)?),
        ["allowance", "--model"] => allowance::run(&mut subject::Model),
        ["allowance"] => allowance::run(&mut *library()?),
        ["bench", "--original", ..] => bench::original(&args[2..]),
        ["bench", ..] => bench::both(&args[1..]),
        ["paths", binary, _, ..] => program::run(&program_of(binary)?, &args[2..]),
        ["paths-fuzz", binary, inputs, seed] => program::random::run(&program_of(binary)?, number(inputs)?, number(seed)?),
        ["paths-io", binary] => program::io::run(binary),
        _ => Err(USAGE.into()),
    }
}

#[cfg(feature = "library")]
fn library() -> Result<Box<dyn subject::Subject>, String> {
    Ok(Box::<library::Library>::default())
}

#[cfg(not(feature = "library"))]
fn library() -> Result<Box<dyn subject::Subject>, String> {
    Err("built without the library".into())
}

fn program_of(binary: &str) -> Result<program::Program, String> {
    match binary {
        "--model" => Ok(program::Program::Model),
        _ => program::Program::binary(binary),
    }
}

fn number(text: &str) -> Result<u64, String> {
    text.parse().map_err(|_| format!("not a number: {text}"))
}
