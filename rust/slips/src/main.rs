//! slips: looks at and works on images of a queue of slips on NOR flash.
mod arguments;
mod failure;
mod file;
mod guess;
mod help;
mod json;
mod looking;
mod map;
mod page;
mod progress;
mod refusal;
mod replace;
mod shape;
mod show;
mod slip;
mod storing;
mod survey;
mod system;
mod torture;

use arguments::{Allowed, Words, parse};
use failure::Failure;
use shape::Numbers;
use show::{note, say};
use std::ffi::OsString;
use std::process::ExitCode;

/// A command: its name, its options besides those of every command, its help, and what it does.
struct Command {
    name: &'static str,
    options: &'static [Allowed],
    help: &'static str,
    run: fn(Words) -> Result<(), Failure>,
}

const COMMANDS: [Command; 11] = [
    Command {
        name: "new",
        options: &[],
        help: help::NEW,
        run: storing::new,
    },
    Command {
        name: "push",
        options: &[
            ("hex", true),
            ("file", true),
            ("overwrite", false),
            ("limit", true),
            ("force", false),
        ],
        help: help::PUSH,
        run: storing::push,
    },
    Command {
        name: "pop",
        options: &[
            ("hex", false),
            ("raw", false),
            ("buffer", true),
            ("limit", true),
            ("force", false),
        ],
        help: help::POP,
        run: storing::pop,
    },
    Command {
        name: "peek",
        options: &[("hex", false), ("raw", false), ("buffer", true)],
        help: help::PEEK,
        run: looking::peek,
    },
    Command {
        name: "list",
        options: &[("hex", false), ("raw", false), ("json", false)],
        help: help::LIST,
        run: looking::list,
    },
    Command {
        name: "map",
        options: &[("items", false), ("hex", false), ("json", false)],
        help: help::MAP,
        run: looking::map,
    },
    Command {
        name: "space",
        options: &[("json", false)],
        help: help::SPACE,
        run: looking::space,
    },
    Command {
        name: "fit",
        options: &[],
        help: help::FIT,
        run: looking::fit,
    },
    Command {
        name: "guess",
        options: &[],
        help: help::GUESS,
        run: guess::guess,
    },
    Command {
        name: "erase",
        options: &[("limit", true), ("force", false)],
        help: help::ERASE,
        run: storing::erase,
    },
    Command {
        name: "torture",
        options: &[("seed", true), ("calls", true)],
        help: help::TORTURE,
        run: torture::command,
    },
];

fn main() -> ExitCode {
    match run(std::env::args_os().skip(1)) {
        Ok(()) => ExitCode::SUCCESS,
        Err(failure) => {
            if !failure.is_quiet() {
                note(&failure.to_string());
            }
            ExitCode::from(failure.status())
        }
    }
}

fn run(mut words: impl Iterator<Item = OsString>) -> Result<(), Failure> {
    let Some(name) = words.next() else {
        return Err(Failure::Usage("no command".into()));
    };
    match name.to_string_lossy().as_ref() {
        "help" | "--help" | "-h" => match words.next() {
            None => say(&help::all()),
            Some(name) => say(&help::of(command(&name.to_string_lossy())?.help)),
        },
        "version" | "--version" | "-V" => say(concat!("slips ", env!("CARGO_PKG_VERSION"))),
        name => {
            let command = command(name)?;
            let options = [command.options, &Numbers::OPTIONS, &[("help", false)]].concat();
            let words = parse(words, &options)?;
            match words.has("help") {
                true => say(&help::of(command.help)),
                false => (command.run)(words),
            }
        }
    }
}

fn command(name: &str) -> Result<&'static Command, Failure> {
    let found = COMMANDS.iter().find(|command| command.name == name);
    found.ok_or_else(|| Failure::Usage(format!("there is no command {name:?}")))
}
