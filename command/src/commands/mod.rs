//! The commands of `headwords` by name, and the help that each gives.

mod assemble;
mod check;
mod compare;
mod convert;
mod forms;
mod generate;
mod list;
mod read;
mod rules;
mod sheet;
mod show;
mod spell;
mod text;
mod why;

use crate::arguments::{self, Choice, Given};
use crate::failure::{print, tell, Failure};
use crate::nearest::{is_meant, nearest};
use std::ffi::OsString;
use std::ops::RangeInclusive;
use std::process::ExitCode;

/// A command, as its own file describes it.
pub struct Command {
    pub name: &'static str,
    /// What follows the name, `GRAMMAR [WORD...]`.
    pub operands: &'static str,
    /// How many operands it takes.
    pub count: RangeInclusive<usize>,
    /// What it does, in a line.
    pub what: &'static str,
    pub options: &'static [Choice],
    /// The help's last lines.
    pub more: &'static str,
    pub run: fn(&Given) -> Result<(), Failure>,
}

const COMMANDS: [&Command; 14] = [
    &read::COMMAND,
    &generate::COMMAND,
    &forms::COMMAND,
    &check::COMMAND,
    &assemble::COMMAND,
    &text::COMMAND,
    &convert::COMMAND,
    &list::COMMAND,
    &why::COMMAND,
    &compare::COMMAND,
    &show::COMMAND,
    &rules::COMMAND,
    &sheet::COMMAND,
    &spell::COMMAND,
];

const NOTES: &str = "\
GRAMMAR is a text, or an image with its names, IMAGE.names, beside it.
headwords help COMMAND says more of a command, headwords --version its version.
";

/// Runs the command that the first argument names.
pub fn run(arguments: &[OsString]) -> ExitCode {
    match dispatch(arguments) {
        Ok(()) => ExitCode::SUCCESS,
        Err(Failure::Told) => ExitCode::from(1),
        Err(Failure::Missing | Failure::Usage(_)) => ExitCode::from(2),
    }
}

fn dispatch(arguments: &[OsString]) -> Result<(), Failure> {
    let Some((first, rest)) = arguments.split_first() else {
        tell(&overview());
        return Err(Failure::Missing);
    };
    match (first.to_str(), rest) {
        (Some("--help" | "-h" | "help"), []) => print(&overview()),
        (Some("--version"), []) => print(&format!("headwords {}\n", env!("CARGO_PKG_VERSION"))),
        (Some("help"), [name]) => print(&help(named(&name.to_string_lossy())?)),
        (Some("help"), [_, ..]) => Err(wrong("help takes one command")),
        _ => run_named(named(&first.to_string_lossy())?, rest),
    }
}

fn run_named(command: &Command, arguments: &[OsString]) -> Result<(), Failure> {
    let options = arguments.iter().take_while(|argument| *argument != "--");
    if options.into_iter().any(|argument| argument == "--help" || argument == "-h") {
        return print(&help(command));
    }
    let ended = arguments::parse(arguments, command).and_then(|given| (command.run)(&given));
    if let Err(Failure::Usage(what)) = &ended {
        let name = command.name;
        tell(&format!("headwords {name}: {what}\n{}headwords help {name} says more\n", usage(command)));
    }
    ended
}

fn named(name: &str) -> Result<&'static Command, Failure> {
    COMMANDS.into_iter().find(|command| command.name == name).ok_or_else(|| {
        let names = COMMANDS.iter().map(|command| command.name);
        wrong(&format!("there is no command {name}{}", is_meant(nearest(name, names))))
    })
}

fn wrong(what: &str) -> Failure {
    tell(&format!("headwords: {what}\nheadwords help lists the commands\n"));
    Failure::Missing
}

fn overview() -> String {
    let width = COMMANDS.iter().map(|command| command.name.len() + 1 + command.operands.len()).max().unwrap_or(0);
    let lines = COMMANDS.iter().map(|command| {
        let usage = format!("{} {}", command.name, command.operands);
        format!("  {usage:width$}  {}\n", command.what)
    });
    let commands: String = lines.collect();
    format!("usage: headwords COMMAND ...\n\n{commands}\n{NOTES}")
}

fn usage(command: &Command) -> String {
    let options = if command.options.is_empty() { "" } else { " [OPTION...]" };
    format!("usage: headwords {}{options} {}\n", command.name, command.operands)
}

fn help(command: &Command) -> String {
    let shown =
        |choice: &Choice| choice.value.map_or(choice.name.to_string(), |value| format!("{} {value}", choice.name));
    let width = command.options.iter().map(|choice| shown(choice).len()).max().unwrap_or(0);
    let options = command.options.iter().map(|choice| format!("  {:width$}  {}\n", shown(choice), choice.what));
    let mut help = format!("{}\n{}\n", usage(command), command.what);
    if !command.options.is_empty() {
        help += &format!("\n{}", options.collect::<String>());
    }
    if !command.more.is_empty() {
        help += &format!("\n{}", command.more);
    }
    help
}
