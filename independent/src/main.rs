//! An independent reference program for the desks of document 01 and requests
//! 1, 2, 5, 6 and 11 of document 02, written from the papers alone: 01-scope.md,
//! READINGS.md, REPLAY.md, STORY.md, 02-change-requests.md, READINGS-02.md,
//! REPLAY-02.md and H.450.9.

mod clerk;
mod codec;
mod coverage;
mod line;
mod make;
mod meant;
mod outcome;
mod script;
mod story;
mod timers;

use std::io::{self, BufWriter, Read, Write};
use std::path::Path;
use std::process::ExitCode;

const USAGE: &str = "independent play                          script on standard input, lines on standard output
independent make codec DIR
independent make clerk DIR
independent make line DIR
independent make stop DIR
independent make random SEED ENTRIES DIR
independent make stored FILE
independent coverage [--require-all] SCRIPT..
independent story                         the six scenes of STORY.md on standard output";

/// Writes to standard output; a closed one is an error and no panic.
fn print(text: &str) -> io::Result<()> {
    let mut output = io::stdout().lock();
    output.write_all(text.as_bytes())?;
    output.flush()
}

fn play() -> io::Result<()> {
    let mut script = Vec::new();
    io::stdin().lock().read_to_end(&mut script)?;
    let mut output = BufWriter::new(io::stdout().lock());
    let mut fault = None;
    script::play_script(&script, |text| {
        if fault.is_none() {
            fault = output.write_all(text.as_bytes()).err();
        }
    });
    match fault {
        Some(error) => Err(error),
        None => output.flush(),
    }
}

fn usage() -> io::Error {
    io::Error::new(io::ErrorKind::InvalidInput, USAGE)
}

fn make(words: &[&str]) -> io::Result<()> {
    let told = match words {
        ["codec", directory] => make::codec::scripts().save(Path::new(directory), "codec")?,
        ["clerk", directory] => make::clerk::scripts().save(Path::new(directory), "clerk")?,
        ["line", directory] => make::line::scripts().save(Path::new(directory), "line")?,
        ["stop", directory] => make::stop::scripts().save(Path::new(directory), "stop")?,
        ["stored", file] => make::stored::Stored::new().save(Path::new(file))?,
        ["random", seed, entries, directory] => {
            let number: u64 = seed.parse().map_err(|_| usage())?;
            let entries = entries.parse().map_err(|_| usage())?;
            let name = format!("random-{number}");
            make::random::scripts(number, entries).save(Path::new(directory), &name)?
        }
        _ => return Err(usage()),
    };
    print(&format!("{told}\n"))
}

/// The report, and true where every row was reached, but those of `stop N`.
fn cover(paths: &[&str]) -> io::Result<(String, bool)> {
    let (require_all, paths) = match paths.split_first() {
        Some((&"--require-all", rest)) => (true, rest),
        _ => (false, paths),
    };
    let mut coverage = coverage::Coverage::new();
    for path in paths {
        let script = std::fs::read(path)?;
        coverage.play(&script);
    }
    Ok((coverage.report(require_all), coverage.complete()))
}

fn run(words: &[&str]) -> io::Result<bool> {
    match words.split_first() {
        Some((&"play", [])) => play().map(|()| true),
        Some((&"make", rest)) => make(rest).map(|()| true),
        Some((&"coverage", paths)) => {
            let (report, complete) = cover(paths)?;
            print(&report).map(|()| complete)
        }
        Some((&"story", [])) => print(&story::text()).map(|()| true),
        _ => Err(usage()),
    }
}

fn main() -> ExitCode {
    let words: Vec<String> = std::env::args_os().skip(1).map(|w| w.to_string_lossy().into_owned()).collect();
    let words: Vec<&str> = words.iter().map(String::as_str).collect();
    match run(&words) {
        Ok(true) => ExitCode::SUCCESS,
        Ok(false) => ExitCode::from(1),
        Err(error) => {
            let _ = writeln!(io::stderr(), "{error}");
            ExitCode::from(2)
        }
    }
}

#[cfg(test)]
mod tests {
    use super::*;

    #[test]
    fn coverage_that_requires_all_tells_by_its_status_what_is_missing() {
        // No script reaches no row; false becomes a status of 1.
        let listed = |(report, complete): (String, bool)| (report.contains("\nMISSING clerk: refusal 12\n"), complete);
        assert_eq!(cover(&["--require-all"]).map(listed).ok(), Some((true, false)));
        assert_eq!(cover(&[]).map(listed).ok(), Some((false, false)));
        assert!(run(&["coverage", "--require-all", "no such file"]).is_err());
        assert!(run(&["make", "stored"]).is_err());
        assert!(run(&["story", "4"]).is_err());
    }
}
