//! The command: writes the replay files, interprets a script, checks the files, prints
//! edge cases, cuts the power of a program that interprets scripts, or does the bench's work.
//! Follows the page on replay, and that on the bench.

use second::bench::{self, Outcome};
use second::cuts::cuts;
use second::edges;
use second::replay::{run, script, Extent};
use std::io::{self, Read, Write};
use std::path::Path;
use std::process::{Command, ExitCode, Stdio};

const USAGE: &str = "usage: second replay DIR [blocks]
       second check DIR [blocks]
       second run < SCRIPT > ANSWERS
       second edges cards
       second edges ciphers
       second edges seals
       second edges records
       second edges cuts
       second edges compare
       second cuts PROGRAM [WORD..]";

fn main() -> ExitCode {
    let arguments = std::env::args_os().skip(1);
    let arguments: Vec<_> = arguments
        .map(|word| word.to_string_lossy().into_owned())
        .collect();
    let arguments: Vec<&str> = arguments.iter().map(String::as_str).collect();
    let outcome = match arguments[..] {
        ["replay", directory] => write_files(directory, Extent::Whole),
        ["replay", directory, "blocks"] => write_files(directory, Extent::Blocks),
        ["check", directory] => check_files(directory, Extent::Whole),
        ["check", directory, "blocks"] => check_files(directory, Extent::Blocks),
        ["run"] => interpret(),
        ["edges", "cards"] => write_out(edges::cards().as_bytes()),
        ["edges", "ciphers"] => write_out(edges::ciphers().as_bytes()),
        ["edges", "seals"] => write_out(edges::seals().as_bytes()),
        ["edges", "records"] => write_out(edges::records().as_bytes()),
        ["edges", "cuts"] => write_out(edges::cuts().as_bytes()),
        ["edges", "compare"] => write_out(edges::compare().as_bytes()),
        ["cuts", program, ref words @ ..] => cut(program, words),
        ["bench", ref words @ ..] => return bench(words),
        _ => {
            eprintln!("{USAGE}\n       {}", bench::USAGE);
            return ExitCode::from(2);
        }
    };
    match outcome {
        Ok(()) => ExitCode::SUCCESS,
        Err(sentence) => {
            eprintln!("{sentence}");
            ExitCode::FAILURE
        }
    }
}

fn files(extent: Extent) -> [(&'static str, Vec<u8>); 2] {
    let script = script(extent);
    let answers = run(&script);
    [("script", script), ("answers", answers)]
}

fn write_files(directory: &str, extent: Extent) -> Result<(), String> {
    std::fs::create_dir_all(directory)
        .map_err(|error| format!("{directory} can't be made: {error}."))?;
    for (name, bytes) in files(extent) {
        let path = Path::new(directory).join(name);
        std::fs::write(&path, bytes)
            .map_err(|error| format!("{} can't be written: {error}.", path.display()))?;
    }
    Ok(())
}

fn check_files(directory: &str, extent: Extent) -> Result<(), String> {
    for (name, bytes) in files(extent) {
        let path = Path::new(directory).join(name);
        let found = std::fs::read(&path)
            .map_err(|error| format!("{} can't be read: {error}.", path.display()))?;
        if found != bytes {
            let same = found.iter().zip(&bytes).take_while(|(a, b)| a == b).count();
            return Err(format!(
                "{} isn't what this program writes today: they part at byte {same}.",
                path.display()
            ));
        }
    }
    Ok(())
}

fn interpret() -> Result<(), String> {
    let mut script = Vec::new();
    io::stdin()
        .read_to_end(&mut script)
        .map_err(|error| format!("The script can't be read: {error}."))?;
    write_out(&run(&script))
}

fn cut(program: &str, words: &[&str]) -> Result<(), String> {
    let line = cuts(&mut |script| answers_of(program, words, script))?;
    write_out(line.as_bytes())
}

/// One run of the program from its beginning to its end. A program that ends before it
/// has read the whole script is seen by its answers.
fn answers_of(program: &str, words: &[&str], script: &[u8]) -> Result<Vec<u8>, String> {
    let mut child = Command::new(program)
        .args(words)
        .stdin(Stdio::piped())
        .stdout(Stdio::piped())
        .spawn()
        .map_err(|error| format!("{program} can't be run: {error}"))?;
    let mut input = child.stdin.take().expect("standard input is piped");
    let output = std::thread::scope(|scope| {
        scope.spawn(move || input.write_all(script));
        child.wait_with_output()
    });
    let output = output.map_err(|error| format!("{program} can't be waited for: {error}"))?;
    match output.status.success() {
        true => Ok(output.stdout),
        false => Err(format!("{program} ends with {}", output.status)),
    }
}

fn bench(words: &[&str]) -> ExitCode {
    let read = |path: &str| {
        std::fs::read(path).map_err(|error| format!("failed: {path} cannot be read: {error}"))
    };
    let Outcome { out, said, status } = bench::bench(words, &read);
    eprint!("{said}");
    match write_out(&out) {
        Ok(()) => ExitCode::from(status),
        Err(sentence) => {
            eprintln!("{sentence}");
            ExitCode::from(2)
        }
    }
}

fn write_out(answers: &[u8]) -> Result<(), String> {
    io::stdout()
        .write_all(answers)
        .map_err(|error| format!("The answers can't be written: {error}."))
}
