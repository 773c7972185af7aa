//! The help: what a command is, and the texts that say so.

use crate::arguments::Arguments;
use crate::failure::Outcome;

/// A command of the tool.
#[derive(Debug)]
pub struct Command {
    /// Its name.
    pub name: &'static str,
    /// What stands after the name, one line for each form.
    pub forms: &'static [&'static str],
    /// What it does, in one line.
    pub summary: &'static str,
    /// What it does, whole.
    pub text: &'static str,
    /// Its options.
    pub options: &'static [Choice],
    /// An example.
    pub example: &'static str,
    /// The least count of plain arguments, the volume included.
    pub least: usize,
    /// The greatest.
    pub most: usize,
    /// Does it.
    pub run: fn(&Arguments) -> Outcome,
}

/// An option of a command.
#[derive(Debug)]
pub struct Choice {
    /// Its name, with its dashes.
    pub name: &'static str,
    /// What its value is called; none if it takes none.
    pub value: Option<&'static str>,
    /// What it does.
    pub text: &'static str,
}

impl Choice {
    /// The option as a usage line has it.
    fn form(&self) -> String {
        match self.value {
            Some(value) => format!("{} {value}", self.name),
            None => self.name.into(),
        }
    }
}

const EXIT: &str = "\
Exit status: 0 done; 1 refused by the volume or for the free pages that are kept,
or check found it not accepted; 2 the command line is wrong; 3 a file of the host
is missing, in the way, locked, cannot be put or cannot be made, or reading or
writing failed; 4 a rehearsed power cut.
";

/// The help of the tool: a usage line for each command, and the exit statuses.
pub fn overview(commands: &[Command]) -> String {
    let mut text = String::from(
        "office: files put into a volume and read back. A volume is kept in a file.\n\n",
    );
    for command in commands {
        for form in command.forms {
            text.push_str(&format!("  office {} {form}\n", command.name));
        }
        text.push_str(&format!("      {}\n", command.summary));
    }
    text.push_str(
        "\nOptions may stand anywhere after the command; -- ends them. 'office help COMMAND' says\n\
         more about a command. Commands that change a volume take --cut GROUP, a rehearsal of a\n\
         battery swap: the power is cut in that group of stores.\n\n\
         A path inside a volume is names with / between them; / alone is the root. It means the\n\
         same with a / at its start or without; one that ends in / must lead to a folder.\n\n",
    );
    text.push_str(EXIT);
    text
}

/// The help of a command: what it does, its options, an example.
pub fn of_command(command: &Command) -> String {
    let mut text = String::new();
    for form in command.forms {
        text.push_str(&format!("office {} {form}\n", command.name));
    }
    text.push_str(&format!("\n{}\n", command.text.trim_end()));
    if !command.options.is_empty() {
        text.push_str("\nOptions:\n");
    }
    for option in command.options {
        text.push_str(&format!("  {:<15} {}\n", option.form(), option.text));
    }
    text.push_str(&format!("\nExample:\n  {}\n", command.example));
    text
}
