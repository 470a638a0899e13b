//! Help, version, completion for bash and the manual page, all made from the table of commands.

use crate::args::Opt;
use crate::command::{self, Command, COMMANDS, UNPROVED};
use crate::plan;
use std::ffi::OsString;

pub const VERSION: &str = env!("CARGO_PKG_VERSION");

/// What is printed for words that ask for help, the version, the completion or the manual page.
pub fn answer(name: &str, rest: &[OsString]) -> Option<String> {
    let wants_help =
        rest.iter().take_while(|word| *word != "--").any(|word| word == "--help" || word == "-h");
    match name {
        "--help" | "-h" | "help" => {
            let named = rest.first().map(|word| word.to_string_lossy());
            let page = named.and_then(|name| command::named(&name).map(page).or_else(|| other(&name)));
            Some(page.unwrap_or_else(overview))
        }
        "--version" => Some(format!("ring {VERSION}\n")),
        "completion" if !wants_help => Some(completion()),
        "man" if !wants_help => Some(manual()),
        _ if wants_help => command::named(name).map(page).or_else(|| other(name)),
        _ => None,
    }
}

/// Commands that are no row: they are answered here or by bin/ring.
const OTHERS: [(&str, &str, &str); 4] = [
    ("build", "", "proves and builds the programs, a line for each crate"),
    ("completion", "", "completion for bash: source <(bin/ring completion)"),
    ("man", "", "this as a manual page: bin/ring man | man -l -"),
    ("help", "[COMMAND]", "this, or the help of a command"),
];

fn rows() -> Vec<(&'static str, &'static str, &'static str)> {
    COMMANDS.iter().map(|command| (command.name, command.usage, command.says)).chain(OTHERS).collect()
}

/// The help of a command that is no row.
fn other(name: &str) -> Option<String> {
    let row = OTHERS.iter().find(|(other, _, _)| *other == name);
    row.map(|(name, usage, says)| {
        format!("usage: ring {}\n\n{}.\n", format!("{name} {usage}").trim_end(), sentence(says))
    })
}

fn overview() -> String {
    let mut text = "usage: ring COMMAND ...\n\n".to_string();
    for (name, _, says) in rows() {
        text += &format!("  {name:12}{says}\n");
    }
    text += "\nTABLE is a table file or a text; `-` is standard input. Nodes are named by id, or `slot N`.\n";
    text += "Status: 0 done, 1 refused or bad, 2 misuse or a file that fails. `ring COMMAND --help` has the words of each.\n";
    text + UNPROVED + "\n"
}

fn page(command: &Command) -> String {
    let mut text = format!("usage: ring {} {}\n\n{}.\n", command.name, command.usage, sentence(command.says));
    if !command.help.is_empty() {
        text += &format!("{}\n", command.help);
    }
    if command.usage.contains("ACTIONS") {
        text += "\nactions:\n";
        for (form, says) in plan::forms() {
            text += &format!("  {form:31}{says}\n");
        }
    }
    if !command.options.is_empty() {
        text += "\noptions:\n";
        let names: Vec<String> = command.options.iter().map(written).collect();
        let wide = names.iter().map(|name| name.len() + 2).max().unwrap_or(0).max(14);
        for (name, option) in names.iter().zip(command.options) {
            text += &format!("  {name:wide$}{}\n", option.says);
        }
    }
    text + "\n" + UNPROVED + "\n"
}

/// An option, with what its value is called.
fn written(option: &Opt) -> String {
    [option.name, option.value.unwrap_or("")].join(" ")
}

/// With a capital in front.
fn sentence(text: &str) -> String {
    let mut letters = text.chars();
    letters.next().map_or(String::new(), |first| first.to_uppercase().chain(letters).collect())
}

fn completion() -> String {
    let names: Vec<&str> = rows().iter().map(|(name, _, _)| *name).chain(["--help", "--version"]).collect();
    let words: Vec<String> =
        plan::forms().iter().filter_map(|(form, _)| form.split(' ').next().map(String::from)).collect();
    let mut cases = String::new();
    for command in COMMANDS {
        let options: Vec<&str> = command.options.iter().map(|option| option.name).chain(["--help"]).collect();
        let words =
            if command.usage.contains("ACTION") { format!(" {}", words.join(" ")) } else { String::new() };
        cases += &format!("        {}) words=\"{}{words}\" ;;\n", command.name, options.join(" "));
    }
    format!(
        "# Completion of ring for bash: source <(bin/ring completion)\n\
         _ring() {{\n    local words=\n    if [ \"$COMP_CWORD\" -eq 1 ]; then\n        \
         COMPREPLY=($(compgen -W '{}' -- \"$2\"))\n        return\n    fi\n    \
         case ${{COMP_WORDS[1]}} in\n{cases}    esac\n    \
         COMPREPLY=($(compgen -W \"$words\" -- \"$2\") $(compgen -f -- \"$2\"))\n}}\n\
         complete -o filenames -F _ring ring\n",
        names.join(" ")
    )
}

fn manual() -> String {
    let mut text = format!(".TH RING 1 \"\" \"ring {VERSION}\" \"Tarpudhriv\"\n.SH NAME\n");
    text += "ring \\- tables, plans and pages of a Pastry ring bench\n";
    text += ".SH SYNOPSIS\n.B ring\n.I COMMAND\n.RI [ WORDS ]\n.SH DESCRIPTION\n";
    text += "TABLE is a table file or a text; a dash is standard input. Nodes are named by id, or by the word slot and a number.\n";
    text += &roff(UNPROVED);
    text += ".SH COMMANDS\n";
    for command in COMMANDS {
        text += &format!(
            ".TP\n.B ring {} {}\n{}.\n",
            command.name,
            roff(command.usage).trim_end(),
            roff(&sentence(command.says)).trim_end()
        );
        text += &roff(command.help);
        for option in command.options {
            text +=
                &format!(".RS\n.TP\n.B {}\n{}.RE\n", roff(&written(option)).trim_end(), roff(option.says));
        }
    }
    for (name, usage, says) in OTHERS {
        text += &format!(".TP\n.B ring {name} {usage}\n{}", roff(&sentence(says)));
    }
    text += ".SH ACTIONS\n";
    for (form, says) in plan::forms() {
        text += &format!(".TP\n.B {form}\n{}", roff(&says));
    }
    text + ".SH EXIT STATUS\n0 done, 1 refused or bad, 2 misuse or a file that fails.\n"
}

/// Text as roff takes it: no line begins with a dot or a quote, and a dash is one.
fn roff(text: &str) -> String {
    let line = |line: &str| {
        let line = line.trim().replace('\\', "\\e").replace('-', "\\-");
        let guard = if line.starts_with(['.', '\'']) { "\\&" } else { "" };
        format!("{guard}{line}\n")
    };
    text.lines().map(line).collect()
}
