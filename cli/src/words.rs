//! The words after a subcommand: options with their values, and operands.

use std::ffi::{OsStr, OsString};
use std::os::unix::ffi::OsStrExt;

use crate::help;
use crate::trouble::{Trouble, shown};

/// An option, which takes one value.
pub struct Choice {
    pub name: &'static str,
    /// What stands for the value in the help.
    pub value: &'static str,
    pub about: &'static str,
}

pub struct Command {
    pub name: &'static str,
    pub about: &'static str,
    /// What the operands are called; all of them are needed, but for one in
    /// brackets.
    pub operands: &'static [&'static str],
    pub options: &'static [&'static Choice],
    pub run: fn(&Words) -> Result<u8, Trouble>,
}

#[derive(Default)]
pub struct Words {
    values: Vec<(&'static str, OsString)>,
    pub operands: Vec<OsString>,
}

impl Words {
    /// The operands of a command that has two.
    pub fn both(&self) -> [&OsStr; 2] {
        [&self.operands[0], &self.operands[1]]
    }

    /// The value of an option, if it was given.
    pub fn value(&self, choice: &Choice) -> Option<&OsStr> {
        self.values.iter().find(|(name, _)| *name == choice.name).map(|(_, value)| value.as_os_str())
    }

    /// The name of the first of some options that was given.
    pub fn first_given(&self, choices: &[&'static Choice]) -> Option<&'static str> {
        choices.iter().find(|choice| self.value(choice).is_some()).map(|choice| choice.name)
    }

    fn take(&mut self, choice: &Choice, value: OsString) -> Result<(), Trouble> {
        if self.value(choice).is_some() {
            return Err(Trouble::usage(format!("{} is given twice", choice.name)));
        }
        self.values.push((choice.name, value));
        Ok(())
    }
}

/// Splits `--name=value`. The value may be a file's name, which need not be
/// text.
fn parts(word: &OsStr) -> (String, Option<OsString>) {
    let mut parts = word.as_bytes().splitn(2, |&byte| byte == b'=');
    let name = String::from_utf8_lossy(parts.next().unwrap_or_default());
    (name.into(), parts.next().map(|value| OsStr::from_bytes(value).into()))
}

/// The words of a command: options in any place, a `--` before operands that
/// begin with a dash. A single dash is an operand.
pub fn parse(command: &Command, words: &[OsString]) -> Result<Words, Trouble> {
    let mut parsed = Words::default();
    let mut left = words.iter();
    while let Some(word) = left.next() {
        if word == "--" {
            parsed.operands.extend(left.by_ref().cloned());
        } else if word == "-" || !word.as_encoded_bytes().starts_with(b"-") {
            parsed.operands.push(word.clone());
        } else {
            let (name, value) = parts(word);
            let choice = known(command, &name)?;
            let value = value.or_else(|| left.next().cloned());
            let missing = || Trouble::usage(format!("{} wants {} after it", choice.name, choice.value));
            parsed.take(choice, value.ok_or_else(missing)?)?;
        }
    }
    counted(command, &parsed.operands)?;
    Ok(parsed)
}

/// The option of that name.
fn known(command: &Command, name: &str) -> Result<&'static Choice, Trouble> {
    if name == help::OPTION {
        return Err(Trouble::usage(format!("{name} takes no value")));
    }
    let found = command.options.iter().find(|choice| choice.name == name);
    found.copied().ok_or_else(|| {
        let names = command.options.iter().map(|choice| choice.name).chain([help::OPTION]);
        Trouble::usage(format!("unknown option {}: did you mean {}?", shown(name), nearest(name, names)))
    })
}

fn counted(command: &Command, operands: &[OsString]) -> Result<(), Trouble> {
    let least = command.operands.iter().filter(|name| !name.starts_with('[')).count();
    if operands.len() < least {
        let missing = command.operands[operands.len()];
        return Err(Trouble::usage(format!("{missing} is missing: ./badge help {} says more", command.name)));
    }
    match operands.get(command.operands.len()) {
        Some(extra) => Err(Trouble::usage(format!("{} is one word too many for {}", shown(extra), command.name))),
        None => Ok(()),
    }
}

/// The name nearest to a word: the first that is made of it by the fewest
/// signs put in, left out or exchanged. A name that goes on after the word
/// has ended is one step away and no more.
pub fn nearest<'a>(word: &str, names: impl Iterator<Item = &'a str>) -> &'a str {
    let front = |name: &str| name.chars().take(word.chars().count()).collect::<String>();
    names.min_by_key(|name| steps(word, name).min(1 + steps(word, &front(name)))).unwrap_or_default()
}

/// How many signs have to be put in, left out or exchanged.
fn steps(from: &str, to: &str) -> usize {
    let to: Vec<char> = to.chars().collect();
    let mut row: Vec<usize> = (0..=to.len()).collect();
    for (i, sign) in from.chars().enumerate() {
        let mut before = row[0];
        row[0] = i + 1;
        for j in 0..to.len() {
            let exchanged = before + usize::from(sign != to[j]);
            before = row[j + 1];
            row[j + 1] = exchanged.min(before + 1).min(row[j] + 1);
        }
    }
    row[to.len()]
}

#[cfg(test)]
mod tests {
    use super::*;

    #[test]
    fn steps_are_counted() {
        let cases = [("", "", 0), ("", "ab", 2), ("mode", "mode", 0), ("mod", "mode", 1), ("kitten", "sitting", 3)];
        cases.into_iter().for_each(|(from, to, count)| assert_eq!(steps(from, to), count, "{from} {to}"));
    }

    #[test]
    fn a_short_word_is_near_to_what_it_begins() {
        assert_eq!(nearest("floid", ["off", "checker", "floyd-steinberg"].into_iter()), "floyd-steinberg");
        assert_eq!(nearest("chekcer", ["off", "checker", "floyd-steinberg"].into_iter()), "checker");
    }
}
