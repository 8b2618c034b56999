//! A command of the program, and how the arguments choose one.

use crate::arguments::{Arguments, Flag};
use crate::failure::{escaped, Failure, Status, PROGRAM};
use crate::output::Output;
use std::ffi::OsString;
use std::io::Write;

pub struct Command {
    pub name: &'static str,
    /// What it does, in a line.
    pub summary: &'static str,
    pub usage: &'static str,
    /// The rest of its help.
    pub help: &'static str,
    pub flags: &'static [Flag],
    pub run: fn(&Arguments, &mut Output) -> Result<Status, Failure>,
}

const USAGE: &str = "icode COMMAND [OPTION].. FILE..
       icode COMMAND --help
       icode --help | --version";

const STATUSES: &str = "\
Exit status: 0 when all went well; 1 when a file or text is refused, or its run is trapped or spent;
2 for errors of usage, reading or writing.
";

/// Does what the arguments ask for.
pub fn run_program(
    commands: &[Command],
    mut arguments: impl Iterator<Item = OsString>,
    out: &mut Output,
) -> Result<Status, Failure> {
    let usage = |fault: String| Failure::Usage(fault, USAGE);
    let Some(first) = arguments.next() else {
        return Err(usage("no command is given".to_string()));
    };
    match first.to_str() {
        Some("--help" | "-h") => print_overview(commands, out)?,
        Some("--version") => writeln!(out, "{PROGRAM} {}", env!("CARGO_PKG_VERSION"))?,
        name => {
            let known = commands.iter().find(|command| Some(command.name) == name);
            let names: Vec<&str> = commands.iter().map(|command| command.name).collect();
            let names = names.join(", ");
            let first = escaped(&first);
            let unknown = || usage(format!("unknown command '{first}'; there are {names}"));
            return run_command(known.ok_or_else(unknown)?, arguments, out);
        }
    }
    Ok(Status::Done)
}

fn run_command(
    command: &Command,
    arguments: impl Iterator<Item = OsString>,
    out: &mut Output,
) -> Result<Status, Failure> {
    let usage = |fault| Failure::Usage(fault, command.usage);
    let arguments = Arguments::parse(arguments, command.flags).map_err(usage)?;
    if !arguments.help {
        return (command.run)(&arguments, out);
    }
    let Command { usage, help, .. } = command;
    write!(out, "usage: {usage}\n\n{help}\n{STATUSES}")?;
    Ok(Status::Done)
}

fn print_overview(commands: &[Command], out: &mut Output) -> Result<(), Failure> {
    writeln!(out, "usage: {USAGE}\n")?;
    writeln!(out, "Works on I-Code records and run files, through the proved library.\n")?;
    for Command { name, summary, .. } in commands {
        writeln!(out, "  {name:<6} {summary}")?;
    }
    writeln!(out, "\nThe file - is standard input, and after -- every argument is a file.")?;
    write!(out, "{STATUSES}")?;
    Ok(())
}
