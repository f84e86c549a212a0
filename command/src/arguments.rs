//! The arguments of a command: operands, and options that are written --x, --x=value or --x value.

use crate::commands::Command;
use crate::failure::Failure;
use crate::nearest::{is_meant, nearest};
use std::ffi::{OsStr, OsString};
use std::os::unix::ffi::OsStrExt;

/// An option that a command takes.
#[derive(Clone, Copy, Debug)]
pub struct Choice {
    /// As it is written, `--jobs`.
    pub name: &'static str,
    /// What its value is called in the help; none where it has no value.
    pub value: Option<&'static str>,
    pub what: &'static str,
}

/// What a command was given.
#[derive(Debug, Default)]
pub struct Given {
    pub operands: Vec<OsString>,
    options: Vec<(&'static str, OsString)>,
}

impl Given {
    pub fn has(&self, name: &str) -> bool {
        self.options.iter().any(|(option, _)| *option == name)
    }

    /// The values of an option that may stand several times.
    pub fn values(&self, name: &str) -> Vec<&OsStr> {
        self.options.iter().filter(|(option, _)| *option == name).map(|(_, value)| value.as_os_str()).collect()
    }

    /// The value of an option; the last one where it stands several times.
    pub fn value(&self, name: &str) -> Option<&OsStr> {
        self.values(name).last().copied()
    }

    /// The value of an option that takes a whole number from 1 on.
    pub fn number(&self, name: &str) -> Result<Option<usize>, Failure> {
        let Some(value) = self.value(name) else {
            return Ok(None);
        };
        let number = value.to_str().and_then(|text| text.parse().ok()).filter(|&number: &usize| number > 0);
        match number {
            Some(number) => Ok(Some(number)),
            None => Err(Failure::Usage(format!("{name} takes a number from 1 on, not {}", value.display()))),
        }
    }
}

/// Tells operands from options. After `--` all are operands; so is `-` alone.
pub fn parse(arguments: &[OsString], command: &Command) -> Result<Given, Failure> {
    let mut given = Given::default();
    let mut rest = arguments.iter();
    while let Some(argument) = rest.next() {
        let bytes = argument.as_encoded_bytes();
        if bytes == b"--" {
            given.operands.extend(rest.by_ref().cloned());
        } else if bytes.starts_with(b"-") && bytes != b"-" {
            let option = read_option(argument, command, &mut rest)?;
            given.options.push(option);
        } else {
            given.operands.push(argument.clone());
        }
    }
    check_count(&given, command)?;
    Ok(given)
}

fn read_option<'a>(
    argument: &OsStr,
    command: &Command,
    rest: &mut impl Iterator<Item = &'a OsString>,
) -> Result<(&'static str, OsString), Failure> {
    let bytes = argument.as_encoded_bytes();
    let (name, value) = match bytes.iter().position(|&byte| byte == b'=') {
        Some(at) => (&bytes[..at], Some(OsStr::from_bytes(&bytes[at + 1..]).to_os_string())),
        None => (bytes, None),
    };
    let name = String::from_utf8_lossy(name);
    let Some(choice) = command.options.iter().find(|choice| choice.name == name) else {
        return Err(Failure::Usage(no_option(&name, command)));
    };
    match (choice.value, value) {
        (None, None) => Ok((choice.name, OsString::new())),
        (None, Some(_)) => Err(Failure::Usage(format!("{name} takes no value"))),
        (Some(_), Some(value)) => Ok((choice.name, value)),
        (Some(what), None) => match rest.next() {
            Some(value) => Ok((choice.name, value.clone())),
            None => Err(Failure::Usage(format!("{name} takes a value, {name} {what}"))),
        },
    }
}

fn no_option(name: &str, command: &Command) -> String {
    let near = nearest(name, command.options.iter().map(|choice| choice.name));
    let hint = match near {
        None if !name.starts_with("--") => "; what begins with - and is no option stands after --".to_string(),
        near => is_meant(near),
    };
    format!("there is no option {name}{hint}")
}

fn check_count(given: &Given, command: &Command) -> Result<(), Failure> {
    let count = given.operands.len();
    if count < *command.count.start() {
        return Err(Failure::Usage("something is missing".to_string()));
    }
    match given.operands.get(*command.count.end()) {
        Some(extra) => Err(Failure::Usage(format!("{} is one too many", extra.display()))),
        None => Ok(()),
    }
}
