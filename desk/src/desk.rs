//! The desk between two commands: the figures that hold, where the table is kept, and how answers are drawn.

use crate::commands::COMMANDS;
use crate::figures::Figures;
use crate::help;
use crate::hex;
use crate::place::listed;
use crate::table_file::TableFile;
use crate::trouble::Trouble;
use crate::words::Words;

pub struct Desk {
    pub figures: Option<Figures>,
    pub table: TableFile,
    /// The strip that was written or moved last.
    pub last: Option<Vec<u8>>,
    /// Whether pictures may have colours.
    pub colour: bool,
    /// Whether long work says on standard error how far it is.
    pub progress: bool,
}

/// What a command answers. A "no" is an answer, and makes the exit status 1.
pub struct Answer {
    pub text: String,
    pub is_no: bool,
}

impl From<String> for Answer {
    fn from(text: String) -> Answer {
        Answer { text, is_no: false }
    }
}

pub type Outcome = Result<Answer, Trouble>;

impl Desk {
    /// The figures that hold.
    pub fn figures(&self) -> Result<Figures, Trouble> {
        let missing = "no figures hold yet: `figures N Q M B`, `long N Q B` or `larsson N Q M B` sets them, and so does the option --figures";
        self.figures
            .ok_or_else(|| Trouble::Unserved(missing.into()))
    }

    /// The strip that a word stands for: its cells in hex, or `last`.
    pub fn strip(&self, words: &mut Words) -> Result<Vec<u8>, Trouble> {
        match words.next("the strip in hex")? {
            "last" => self
                .last
                .clone()
                .ok_or_else(|| Trouble::wrong("last", "no strip was written or moved yet")),
            word => hex::cells(word),
        }
    }

    /// A strip alone, to the end of the command.
    pub fn one_strip(&self, words: &mut Words) -> Result<Vec<u8>, Trouble> {
        let strip = self.strip(words)?;
        words.end()?;
        Ok(strip)
    }

    /// What a written strip is answered with.
    pub fn written(&mut self, starts: &[u16], word: Vec<u8>) -> Answer {
        let text = format!("starts{}\nword {}", listed(starts), hex::shown(&word));
        self.last = Some(word);
        text.into()
    }

    /// Serves one command; one without words is answered with nothing.
    pub fn serve(&mut self, mut words: Words) -> Outcome {
        let Some(name) = words.peek().map(str::to_owned) else {
            return Ok(String::new().into());
        };
        words.next("a command")?;
        let command = COMMANDS.iter().find(|command| command.name == name);
        let Some(command) = command else {
            return Err(Trouble::wrong(&name, help::unknown(&name)));
        };
        (command.serve)(self, &mut words).map_err(|trouble| match trouble {
            Trouble::Wrong(said) => Trouble::Wrong(format!("{said}\n  usage: {}", command.usage)),
            other => other,
        })
    }
}
