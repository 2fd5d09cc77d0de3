//! The desk's program: a prompt, a file or a pipe of commands, or one command.

use std::fs::File;
use std::io::{self, BufRead, BufReader, IsTerminal, Write};
use std::process::ExitCode;

use desk::desk::{Desk, Outcome};
use desk::help;
use desk::options::Options;
use desk::trouble::Trouble;
use desk::words::Words;

const PROMPT: &str = "desk> ";

fn main() -> ExitCode {
    let arguments: Result<Vec<String>, _> = std::env::args_os()
        .skip(1)
        .map(|word| word.into_string())
        .collect();
    let no_text = |word| format!("{word:?} is no text in UTF-8");
    let options = match arguments
        .map_err(no_text)
        .and_then(|all| Options::of(all.into_iter()))
    {
        Ok(options) => options,
        Err(said) => {
            eprintln!("wrong: {said}");
            return ExitCode::from(2);
        }
    };
    match run(&options) {
        Ok(true) => ExitCode::SUCCESS,
        Ok(false) => ExitCode::FAILURE,
        // Whoever reads the answers is gone, or the input can't be read.
        Err(error) if error.kind() == io::ErrorKind::BrokenPipe => ExitCode::FAILURE,
        Err(error) => {
            eprintln!("desk: {error}");
            ExitCode::FAILURE
        }
    }
}

/// Whether every command was served, and none was answered with no.
fn run(options: &Options) -> io::Result<bool> {
    if options.help {
        return answer(Ok(help::all().into()), "").map(|how| how == How::Served);
    }
    let mut desk = match options.desk() {
        Ok(desk) => desk,
        Err(trouble) => return answer(Err(trouble), "").map(|_| false),
    };
    if let Some(path) = &options.file {
        let file = File::open(path)
            .map_err(|error| io::Error::new(error.kind(), format!("'{path}': {error}")))?;
        return lines(&mut desk, BufReader::new(file), options.keep_going);
    }
    if !options.command.is_empty() {
        let outcome =
            Words::of_arguments(options.command.clone()).and_then(|words| desk.serve(words));
        return answer(outcome, "").map(|how| how == How::Served);
    }
    match io::stdin().is_terminal() {
        true => prompt(&mut desk),
        false => lines(&mut desk, io::stdin().lock(), options.keep_going),
    }
}

#[derive(PartialEq, Eq)]
enum How {
    Served,
    No,
    Failed,
}

/// Prints an answer, or on standard error what went wrong, with the place in front.
fn answer(outcome: Outcome, place: &str) -> io::Result<How> {
    match outcome {
        Ok(answer) => {
            let mut out = io::stdout().lock();
            if !answer.text.is_empty() {
                out.write_all((answer.text + "\n").as_bytes())?;
            }
            out.flush()?;
            Ok(if answer.is_no { How::No } else { How::Served })
        }
        Err(trouble) => {
            io::stderr().write_all(format!("{place}{trouble}\n").as_bytes())?;
            Ok(How::Failed)
        }
    }
}

/// The next line; nothing at the end of input. One that is no text is wrong, and those behind it are read.
fn next_line(input: &mut impl BufRead) -> io::Result<Option<Result<String, Trouble>>> {
    let mut bytes = Vec::new();
    if input.read_until(b'\n', &mut bytes)? == 0 {
        return Ok(None);
    }
    let no_text = |_| Trouble::Wrong("this line is no text in UTF-8".into());
    Ok(Some(String::from_utf8(bytes).map_err(no_text)))
}

fn is_quit(line: &Result<String, Trouble>) -> bool {
    line.as_ref().is_ok_and(|line| line.trim() == "quit")
}

fn serve(desk: &mut Desk, line: Result<String, Trouble>) -> Outcome {
    desk.serve(Words::of_line(&line?)?)
}

/// Commands one a line. The first that is refused or wrong ends them, unless they are to go on.
fn lines(desk: &mut Desk, mut input: impl BufRead, keep_going: bool) -> io::Result<bool> {
    let mut all_served = true;
    let mut number = 0;
    while let Some(line) = next_line(&mut input)?.filter(|line| !is_quit(line)) {
        number += 1;
        let how = answer(serve(desk, line), &format!("line {number}: "))?;
        all_served &= how == How::Served;
        if how == How::Failed && !keep_going {
            break;
        }
    }
    Ok(all_served)
}

/// At the prompt whoever types sees what went wrong, and goes on.
fn prompt(desk: &mut Desk) -> io::Result<bool> {
    let mut out = io::stdout();
    writeln!(out, "Burgzemi's desk: help lists the commands, quit ends")?;
    loop {
        write!(out, "{PROMPT}")?;
        out.flush()?;
        match next_line(&mut io::stdin().lock())? {
            Some(line) if !is_quit(&line) => answer(serve(desk, line), "")?,
            Some(_) => return Ok(true),
            None => return writeln!(out).map(|()| true),
        };
    }
}
