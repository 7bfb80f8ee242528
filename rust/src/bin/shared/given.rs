//! The command line of a command: its options and files, or what is wrong with them. Options stand
//! anywhere before `--`; of one that is given twice the later counts. A value stands behind its
//! option or behind `=`. Tested in tests/options.rs.

use std::ffi::OsString;
use std::path::PathBuf;

use mireladle::text::screen::shown;

use super::failure::Failure;
use super::help;
use super::options::{Command, Described};
use super::terminal::Color;

/// The options and files of a command line.
pub struct Given {
    command: &'static Command,
    pub options: Vec<(&'static Described, OsString)>,
    pub paths: Vec<PathBuf>,
}

/// What every command can be asked about itself.
pub enum About {
    Help,
    Version,
    Man,
    Completions(String),
}

impl About {
    /// What is printed.
    pub fn text(&self, command: &Command) -> String {
        match self {
            About::Help => help::help(command),
            About::Version => command.version(),
            About::Man => help::man(command),
            About::Completions(shell) => help::completions(command, shell).unwrap_or_default(),
        }
    }
}

/// Reads a command line.
pub fn given(
    command: &'static Command,
    mut arguments: impl Iterator<Item = OsString>,
) -> Result<Given, Failure> {
    let mut given = Given {
        command,
        options: Vec::new(),
        paths: Vec::new(),
    };
    let mut options = true;
    while let Some(argument) = arguments.next() {
        match argument.to_str() {
            Some("--") if options => options = false,
            Some(text) if options && text.starts_with('-') && text != "-" => {
                let (option, value) = option(command, text)?;
                let value = match (option.value, value) {
                    (None, None) => OsString::new(),
                    (None, Some(_)) => {
                        return Err(wrong(format!("--{} takes no value", option.long)))
                    }
                    (Some(_), Some(value)) => value,
                    (Some(_), None) => arguments
                        .next()
                        .ok_or_else(|| wrong(needs(command, option)))?,
                };
                given.options.push((option, value));
            }
            _ => given.paths.push(PathBuf::from(argument)),
        }
    }
    Ok(given)
}

/// The option that an argument names, and its value where that stands in the same argument.
fn option(
    command: &'static Command,
    text: &str,
) -> Result<(&'static Described, Option<OsString>), Failure> {
    let unknown = || wrong(format!("there is no option {text}"));
    if let Some(long) = text.strip_prefix("--") {
        let (name, value) = match long.split_once('=') {
            Some((name, value)) => (name, Some(OsString::from(value))),
            None => (long, None),
        };
        let found = command.options().find(|option| option.long == name);
        return Ok((found.ok_or_else(unknown)?, value));
    }
    let mut letters = text.chars();
    letters.next();
    let short = letters.next();
    let found = command
        .options()
        .find(|option| option.short.is_some() && option.short == short);
    let found = found.ok_or_else(unknown)?;
    let rest = letters.as_str();
    match (found.value, rest) {
        (_, "") => Ok((found, None)),
        (Some(_), value) => Ok((found, Some(OsString::from(value)))),
        (None, _) => Err(unknown()),
    }
}

/// What is said where an option's value is missing.
fn needs(command: &Command, option: &Described) -> String {
    let long = option.long;
    match command.needs.iter().find(|(name, _)| *name == long) {
        Some((_, needed)) => format!("--{long} needs {needed}"),
        None => format!("--{long} needs a value: {}", option.value.unwrap_or("")),
    }
}

impl Given {
    /// What every command can be asked about itself.
    pub fn about(&self) -> Result<Option<About>, Failure> {
        if self.has("help") {
            return Ok(Some(About::Help));
        }
        if self.has("version") {
            return Ok(Some(About::Version));
        }
        if self.has("man") {
            return Ok(Some(About::Man));
        }
        Ok(self.choice("completions")?.map(About::Completions))
    }

    pub fn has(&self, long: &str) -> bool {
        self.options.iter().any(|(option, _)| option.long == long)
    }

    /// The value of an option that counts.
    pub fn value(&self, long: &str) -> Option<&OsString> {
        let mut values = self.options.iter().rev();
        let found = values.find(|(option, _)| option.long == long);
        found.map(|(_, value)| value)
    }

    pub fn text(&self, long: &str) -> Option<String> {
        let value = self.value(long);
        value.map(|value| value.to_string_lossy().into_owned())
    }

    /// The value of an option that has few.
    pub fn choice(&self, long: &str) -> Result<Option<String>, Failure> {
        let Some(value) = self.text(long) else {
            return Ok(None);
        };
        let option = self.command.options().find(|option| option.long == long);
        let choices = option.map_or(&[][..], |option| option.choices);
        match choices.contains(&value.as_str()) {
            true => Ok(Some(value)),
            false => Err(wrong(format!(
                "--{long} is {}, found {}",
                choices.join(" or "),
                shown(&value)
            ))),
        }
    }

    /// Two options of which only one can be heeded.
    pub fn exclude(&self, one: &str, other: &str, why: &str) -> Result<(), Failure> {
        match self.has(one) && self.has(other) {
            true => Err(wrong(format!(
                "--{one} and --{other} exclude each other{why}"
            ))),
            false => Ok(()),
        }
    }

    /// The byte that parts columns.
    pub fn delimiter(&self) -> Result<u8, Failure> {
        self.exclude("delimiter", "tab", "")?;
        if self.has("tab") {
            return Ok(b'\t');
        }
        let Some(text) = self.text("delimiter") else {
            return Ok(b',');
        };
        match text.as_bytes() {
            b"\\t" => Ok(b'\t'),
            [byte] if byte.is_ascii() && !b"\"\r\n".contains(byte) => Ok(*byte),
            _ => Err(wrong(format!(
                "--delimiter is one character, such as `;`, found {}",
                shown(&text)
            ))),
        }
    }

    pub fn color(&self) -> Result<Color, Failure> {
        Ok(match self.choice("color")?.as_deref() {
            Some("always") => Color::Always,
            Some("never") => Color::Never,
            _ => Color::Auto,
        })
    }
}

pub fn wrong(reason: impl Into<String>) -> Failure {
    Failure::Usage(reason.into())
}
