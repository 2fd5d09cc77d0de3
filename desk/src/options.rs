//! What stands on the command line, and in the environment.

use std::io::IsTerminal;
use std::path::PathBuf;

use crate::desk::Desk;
use crate::table_file::TableFile;
use crate::trouble::Trouble;
use crate::words::Words;

const TABLE: &str = "BURGZEMI_TABLE";
const FIGURES: &str = "BURGZEMI_FIGURES";
const DEFAULT_TABLE: &str = "burgzemi.table";

#[derive(Default)]
pub struct Options {
    table: Option<String>,
    figures: Option<String>,
    colour: Option<bool>,
    pub file: Option<String>,
    pub keep_going: bool,
    pub help: bool,
    /// What stands behind the options: one command, or nothing.
    pub command: Vec<String>,
}

impl Options {
    pub fn of(arguments: impl Iterator<Item = String>) -> Result<Options, String> {
        let mut options = Options {
            table: std::env::var(TABLE).ok(),
            figures: std::env::var(FIGURES).ok(),
            ..Options::default()
        };
        let mut rest = arguments.peekable();
        while let Some(option) = rest.next_if(|word| word.starts_with("--")) {
            let mut value = || {
                rest.next().ok_or_else(|| {
                    format!("{option} has nothing behind it; `desk/run --help` shows the options")
                })
            };
            match option.as_str() {
                "--table" => options.table = Some(value()?),
                "--figures" => options.figures = Some(value()?),
                "--file" => options.file = Some(value()?),
                "--colour" => options.colour = Some(colour(&value()?)?),
                "--keep-going" => options.keep_going = true,
                "--help" => options.help = true,
                _ => {
                    return Err(format!(
                        "'{option}': no option has this name; `desk/run --help` shows the options"
                    ))
                }
            }
        }
        options.command = rest.collect();
        match (&options.file, options.command.first()) {
            (Some(_), Some(word)) => Err(format!(
                "'{word}': behind --file FILE stands no command; `desk/run --help` shows the options"
            )),
            _ => Ok(options),
        }
    }

    /// The desk as the options want it. Figures are set as a command would.
    pub fn desk(&self) -> Result<Desk, Trouble> {
        let path = self.table.as_deref().unwrap_or(DEFAULT_TABLE);
        let terminal = std::io::stdout().is_terminal() && std::env::var_os("NO_COLOR").is_none();
        let mut desk = Desk {
            figures: None,
            last: None,
            table: TableFile::new(PathBuf::from(path)),
            colour: self.colour.unwrap_or(terminal),
            progress: std::io::stderr().is_terminal(),
        };
        if let Some(figures) = &self.figures {
            let named = figures
                .trim_start()
                .starts_with(|c: char| c.is_ascii_alphabetic());
            let line = if named {
                figures.clone()
            } else {
                format!("figures {figures}")
            };
            set_figures(&mut desk, &line)?;
        }
        Ok(desk)
    }
}

fn colour(word: &str) -> Result<bool, String> {
    match word {
        "always" => Ok(true),
        "never" => Ok(false),
        _ => Err(format!("'{word}': --colour is always or never")),
    }
}

fn set_figures(desk: &mut Desk, line: &str) -> Result<(), Trouble> {
    let words = Words::of_line(line)?;
    match words.peek() {
        Some("figures" | "long" | "larsson") => desk.serve(words).map(|_| ()),
        other => Err(Trouble::wrong(
            other.unwrap_or(""),
            "--figures has numbers, or long or larsson in front of them",
        )),
    }
}
