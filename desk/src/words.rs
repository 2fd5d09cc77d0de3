//! A command, cut into words that are taken one after another.

use crate::trouble::Trouble;

pub struct Words {
    words: Vec<String>,
    taken: usize,
}

impl Words {
    /// Words are parted by spaces. One in double quotes may have spaces in it, and `\"` doesn't end it. A `#` in front of a word begins a comment.
    pub fn of_line(line: &str) -> Result<Words, Trouble> {
        let mut words = Vec::new();
        let mut rest = line.trim();
        while !rest.is_empty() && !rest.starts_with('#') {
            let (word, behind) = first_word(rest)?;
            words.push(word.to_owned());
            rest = behind.trim_start();
        }
        Ok(Words { words, taken: 0 })
    }

    /// What a shell has cut already. A single one is a line.
    pub fn of_arguments(arguments: Vec<String>) -> Result<Words, Trouble> {
        match arguments.as_slice() {
            [line] => Words::of_line(line),
            _ => Ok(Words {
                words: arguments,
                taken: 0,
            }),
        }
    }

    pub fn peek(&self) -> Option<&str> {
        self.words.get(self.taken).map(String::as_str)
    }

    /// The next word; `what` names it where there is none.
    pub fn next(&mut self, what: &str) -> Result<&str, Trouble> {
        let word = self.words.get(self.taken);
        self.taken += 1;
        word.map(String::as_str)
            .ok_or_else(|| Trouble::Wrong(format!("{what} is missing")))
    }

    /// A whole number up to a limit.
    pub fn number(&mut self, what: &str, limit: u32) -> Result<u32, Trouble> {
        let word = self.next(what)?;
        whole(word, limit)
            .ok_or_else(|| Trouble::wrong(word, format!("{what} is a whole number up to {limit}")))
    }

    /// Takes the next word where it is this one.
    pub fn skip(&mut self, word: &str) -> bool {
        let is_next = self.peek() == Some(word);
        self.taken += usize::from(is_next);
        is_next
    }

    /// Takes a word that must be this one.
    pub fn expect(&mut self, word: &str) -> Result<(), Trouble> {
        match self.next(&format!("the word {word}"))? {
            found if found == word => Ok(()),
            found => Err(Trouble::wrong(
                found,
                format!("here stands the word {word}"),
            )),
        }
    }

    /// Takes words until one of these, or to the end.
    pub fn until(&mut self, ends: &[&str]) -> Vec<String> {
        let rest = self.words.get(self.taken..).unwrap_or_default();
        let count = rest
            .iter()
            .position(|word| ends.contains(&word.as_str()))
            .unwrap_or(rest.len());
        let taken = rest[..count].to_vec();
        self.taken += count;
        taken
    }

    /// Nothing may be left.
    pub fn end(&self) -> Result<(), Trouble> {
        match self.peek() {
            Some(word) => Err(Trouble::wrong(word, "this word is one too many")),
            None => Ok(()),
        }
    }
}

/// A number in decimal digits alone: no sign, and nothing that stands for another number.
pub fn whole(word: &str, limit: u32) -> Option<u32> {
    let digits = word.bytes().all(|byte| byte.is_ascii_digit());
    let number = word.parse().ok()?;
    (digits && number <= limit).then_some(number)
}

fn first_word(line: &str) -> Result<(&str, &str), Trouble> {
    let Some(quoted) = line.strip_prefix('"') else {
        return Ok(line.split_at(line.find(char::is_whitespace).unwrap_or(line.len())));
    };
    let mut escaped = false;
    for (at, c) in quoted.char_indices() {
        if c == '"' && !escaped {
            return Ok((&quoted[..at], &quoted[at + 1..]));
        }
        escaped = c == '\\' && !escaped;
    }
    Err(Trouble::wrong(line, "this text has no closing quote"))
}
