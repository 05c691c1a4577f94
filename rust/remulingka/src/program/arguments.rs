//! The words of a command: what it works on, and its options.

use std::ffi::{OsStr, OsString};
use std::ops::Range;
use std::os::unix::ffi::OsStrExt;
use std::path::Path;

use super::failure::Failure;
use super::names::Choices;
use super::options::{Command, Takes};

/// The words of a command, taken apart. Names of files need not be UTF-8.
pub struct Arguments {
    command: &'static Command,
    operands: Vec<OsString>,
    options: Vec<(&'static str, OsString)>,
}

impl Arguments {
    /// Takes the words behind the command's name apart. An option is `--name value`,
    /// `--name=value`, or `-n value`; behind `--` nothing is an option, and `-` alone
    /// is none.
    pub fn parse(words: &[OsString], command: &'static Command) -> Result<Arguments, Failure> {
        let mut arguments = Arguments {
            command,
            operands: Vec::new(),
            options: Vec::new(),
        };
        let mut words = words.iter();
        while let Some(word) = words.next() {
            match word.as_bytes() {
                b"--" => arguments.operands.extend(words.by_ref().cloned()),
                [b'-', b'-', option @ ..] => {
                    let mut parts = option.splitn(2, |&byte| byte == b'=');
                    let name = parts.next().unwrap_or_default();
                    let value = parts.next().map(OsStr::from_bytes);
                    let name = String::from_utf8_lossy(name);
                    arguments.add_long(&name, value, &mut words)?;
                }
                [b'-', short, rest @ ..] => {
                    arguments.add_short(*short, rest, &mut words)?;
                }
                _ => arguments.operands.push(word.clone()),
            }
        }
        Ok(arguments)
    }

    /// Adds a long option with its value.
    fn add_long<'a>(
        &mut self,
        name: &str,
        value: Option<&OsStr>,
        words: &mut impl Iterator<Item = &'a OsString>,
    ) -> Result<(), Failure> {
        let option = self.command.options().find(|option| option.name == name);
        let setting = self.command.settings().find(|known| known.name == name);
        let (name, takes) = match (option, setting) {
            (Some(option), _) => (option.name, option.takes),
            (None, Some(setting)) => (setting.name, Takes::Text),
            (None, None) => return Err(self.usage(&format!("there is no option --{name}"))),
        };
        let value = match (takes, value) {
            (Takes::Nothing, Some(_)) => {
                return Err(self.usage(&format!("option --{name} takes no value")))
            }
            (Takes::Nothing, None) => OsString::new(),
            (_, Some(value)) => value.to_os_string(),
            (_, None) => words
                .next()
                .cloned()
                .ok_or_else(|| self.usage(&format!("option --{name} needs a value")))?,
        };
        self.options.push((name, value));
        Ok(())
    }

    /// Adds a short option; its value may follow it at once.
    fn add_short<'a>(
        &mut self,
        short: u8,
        rest: &[u8],
        words: &mut impl Iterator<Item = &'a OsString>,
    ) -> Result<(), Failure> {
        let known = self.command.options().find(|option| {
            let is_flag = option.takes == Takes::Nothing;
            option.short == Some(short as char) && (rest.is_empty() || !is_flag)
        });
        let Some(option) = known else {
            let word = String::from_utf8_lossy(rest);
            return Err(self.usage(&format!("there is no option -{}{word}", short as char)));
        };
        let value = (!rest.is_empty()).then(|| OsStr::from_bytes(rest));
        self.add_long(option.name, value, words)
    }

    /// A message that ends with where help is.
    pub fn usage(&self, message: &str) -> Failure {
        let page = match self.command.name {
            "help" => String::new(),
            name => format!(" {name}"),
        };
        Failure::Usage(format!("{message} (see remulingka help{page})"))
    }

    /// Whether the flag was given.
    pub fn flag(&self, name: &str) -> bool {
        self.option(name).is_some()
    }

    /// The value of an option; the last one, if it was given more than once.
    fn option(&self, name: &str) -> Option<&OsStr> {
        let mut given = self.options.iter().rev();
        given
            .find(|(key, _)| *key == name)
            .map(|(_, value)| value.as_os_str())
    }

    /// The file that an option names.
    pub fn path(&self, name: &str) -> Option<&Path> {
        self.option(name).map(Path::new)
    }

    /// The word that an option gives.
    pub fn text(&self, name: &str) -> Option<String> {
        self.option(name)
            .map(|value| value.to_string_lossy().into_owned())
    }

    /// The number an option gives, if it is given.
    pub fn number<T: std::str::FromStr>(&self, name: &str) -> Result<Option<T>, Failure> {
        let Some(text) = self.text(name) else {
            return Ok(None);
        };
        let parsed = text.parse();
        parsed
            .map(Some)
            .map_err(|_| self.usage(&format!("--{name}: {text} is no such number")))
    }

    /// How many files are worked on at a time.
    pub fn jobs(&self) -> Result<usize, Failure> {
        match self.number("jobs")?.unwrap_or(1) {
            0 => Err(self.usage("--jobs: 1 or more")),
            jobs => Ok(jobs),
        }
    }

    /// The part of an axis that `FIRST:END` takes, from 0, the end left out; either
    /// may be left away.
    pub fn range(&self, name: &str, size: usize) -> Result<Range<usize>, Failure> {
        let Some(text) = self.text(name) else {
            return Ok(0..size);
        };
        let end_of = |word: &str, without: usize| match word {
            "" => Some(without),
            _ => word.parse().ok(),
        };
        let ends = text
            .split_once(':')
            .and_then(|(first, end)| Some((end_of(first, 0)?, end_of(end, size)?)));
        match ends {
            Some((first, end)) if first < end && end <= size => Ok(first..end),
            Some((first, end)) if first < end => Err(self.usage(&format!(
                "--{name} {text}: there are only {size}, so END is at most {size}"
            ))),
            Some(_) => Err(self.usage(&format!(
                "--{name} {text}: FIRST must be below END, which is left out"
            ))),
            None => Err(self.usage(&format!(
                "--{name} {text}: wanted is FIRST:END, such as 0:10, :10 or 10:"
            ))),
        }
    }

    /// All operands.
    pub fn operands(&self) -> &[OsString] {
        &self.operands
    }

    /// The operands of a command that takes exactly `COUNT`.
    pub fn exactly<const COUNT: usize>(&self) -> Result<[&Path; COUNT], Failure> {
        let operands: Vec<&Path> = self.operands.iter().map(Path::new).collect();
        operands.try_into().map_err(|_| self.wrong_operands())
    }

    /// The failure of a command that was given too few or too many operands.
    pub fn wrong_operands(&self) -> Failure {
        let takes = match self.command.operands {
            "" => "nothing",
            operands => operands,
        };
        self.usage(&format!("{} takes {takes}", self.command.name))
    }

    /// The settings of `--settings` files and then of options.
    pub fn choices(&self) -> Result<Choices, Failure> {
        let mut choices = Choices::default();
        for (name, value) in &self.options {
            if *name == "settings" {
                choices.add_file(Path::new(value))?;
            }
        }
        for (name, value) in &self.options {
            if *name == "tables" {
                choices.add_tables(Path::new(value));
            } else {
                // Options that are no settings are not taken.
                choices.add(format!("--{name}"), name, &value.to_string_lossy());
            }
        }
        Ok(choices)
    }
}
