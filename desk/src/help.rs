//! What the desk says of itself.

use crate::commands::COMMANDS;
use crate::refusals::{helps_lines, REFUSALS};
use crate::trouble::Trouble;

const STRIPS: &str = "\
A strip is typed in hex, two digits a cell; `last` is the one that was written or moved last.
`help write` shows how a command is typed, `help 12` what a refusal means.";

const OPTIONS: &str = "\
desk/run                a prompt; where standard input is no terminal, commands from there
desk/run --file FILE    the commands of a file, one a line; # begins a comment
desk/run COMMAND..      one command
in front of these:
  --table FILE          the job table's file; else BURGZEMI_TABLE names it, else it is burgzemi.table
  --figures \"60 4 2 4\"  figures that hold from the start, also \"long 20 2 5\" or \"larsson 15 256 1 2\";
                        else BURGZEMI_FIGURES has them
  --keep-going          goes on behind a command that is refused or wrong, which else ends a file
  --colour always|never else pictures have colours on a terminal where NO_COLOR is not set
The exit status is 0; or 1 where a command was refused or wrong, or its answer is no; or 2 for a wrong option.";

/// All commands, a line each.
pub fn all() -> String {
    let lines = COMMANDS
        .iter()
        .map(|command| format!("  {:13}{}", command.name, command.does));
    let lines: Vec<String> = lines.collect();
    format!("{}\n\n{STRIPS}\n\n{OPTIONS}", lines.join("\n"))
}

/// One command, or one refusal.
pub fn of(word: &str) -> Result<String, Trouble> {
    if let Some(command) = COMMANDS.iter().find(|command| command.name == word) {
        return Ok(format!(
            "{}\n  {}\n  example: {}",
            command.usage, command.does, command.example
        ));
    }
    let number = word.parse::<u8>().ok();
    if let Some((number, words, helps)) = REFUSALS.iter().find(|row| Some(row.0) == number) {
        return Ok(format!("{number}: {words}\n{}", helps_lines(helps)));
    }
    Err(Trouble::wrong(
        word,
        "help is for a command, or for a refusal from 1 to 24",
    ))
}

/// What is said of an unknown command: one that is nearly the same, where there is one.
pub fn unknown(word: &str) -> String {
    let near = COMMANDS
        .iter()
        .map(|command| (distance(word, command.name), command.name))
        .min();
    match near {
        Some((changes, name)) if changes <= 2 && changes < name.len() => {
            format!("no command has this name; `{name}` is one")
        }
        _ => "no command has this name; `help` lists them".into(),
    }
}

/// How many letters have to be changed, added or left out.
fn distance(from: &str, to: &str) -> usize {
    let to: Vec<char> = to.chars().collect();
    let mut row: Vec<usize> = (0..=to.len()).collect();
    for (i, a) in from.chars().enumerate() {
        let mut diagonal = row[0];
        row[0] = i + 1;
        for (j, b) in to.iter().enumerate() {
            let changed = diagonal + usize::from(a != *b);
            diagonal = row[j + 1];
            row[j + 1] = changed.min(diagonal + 1).min(row[j] + 1);
        }
    }
    row[to.len()]
}
