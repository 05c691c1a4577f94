//! The manual page and the completions, made from the table of options.

use super::arguments::Arguments;
use super::console::print;
use super::failure::Failure;
use super::options::{filled, Choice, Command, Takes, COMMANDS, COMMON, STATUSES};

/// `remulingka completion SHELL`
pub fn completion(arguments: &Arguments) -> Result<(), Failure> {
    let [shell] = arguments.exactly()?;
    match shell.to_str() {
        Some("bash") => print(&bash()),
        Some("zsh") => print(&zsh()),
        Some("fish") => print(&fish()),
        _ => Err(arguments.wrong_operands()),
    }
}

/// The words that can follow an option, if it takes words from a list.
fn words_of(value: &str) -> Vec<&str> {
    let words = value.split('|');
    // Words in capitals stand for something else.
    words
        .filter(|word| !word.is_empty() && !word.chars().any(|letter| letter.is_ascii_uppercase()))
        .collect()
}

/// An option of a command, its settings with them: short form, name, what it takes,
/// its value and its help.
struct Word {
    short: Option<char>,
    name: &'static str,
    takes: Takes,
    value: &'static str,
    help: String,
}

fn words(command: &Command) -> Vec<Word> {
    let first_line = |help: &str| filled(help).lines().next().unwrap_or("").to_string();
    let of_option = |option: &Choice| Word {
        short: option.short,
        name: option.name,
        takes: option.takes,
        value: option.value,
        help: first_line(option.help),
    };
    let settings = command.settings().map(|setting| Word {
        short: None,
        name: setting.name,
        takes: Takes::Text,
        value: setting.value,
        help: first_line(setting.help),
    });
    command.options().map(of_option).chain(settings).collect()
}

fn names() -> Vec<&'static str> {
    COMMANDS.iter().map(|command| command.name).collect()
}

fn bash() -> String {
    let mut text = String::from(
        "# bash completion for remulingka, made by `remulingka completion bash`.\n\
         _remulingka() {\n    local word=${COMP_WORDS[COMP_CWORD]} before=${COMP_WORDS[COMP_CWORD-1]}\n",
    );
    text.push_str(&format!(
        "    if [ \"$COMP_CWORD\" -eq 1 ]; then\n        COMPREPLY=($(compgen -W '{} --help \
         --version' -- \"$word\"))\n        return\n    fi\n    local options\n    case ${{COMP_WORDS[1]}} in\n",
        names().join(" ")
    ));
    for command in &COMMANDS {
        text.push_str(&format!("    {})\n        case $before in\n", command.name));
        for word in words(command) {
            let values = words_of(word.value);
            if word.takes == Takes::Text && !values.is_empty() {
                text.push_str(&format!(
                    "        --{}) COMPREPLY=($(compgen -W '{}' -- \"$word\")); return ;;\n",
                    word.name,
                    values.join(" ")
                ));
            }
        }
        let options: Vec<String> = words(command)
            .iter()
            .map(|word| format!("--{}", word.name))
            .collect();
        text.push_str(&format!(
            "        esac\n        options='{}' ;;\n",
            options.join(" ")
        ));
    }
    text.push_str(
        "    esac\n    case $word in\n    -*) COMPREPLY=($(compgen -W \"$options\" -- \"$word\")) ;;\n    \
         *) COMPREPLY=($(compgen -f -- \"$word\")) ;;\n    esac\n}\n\
         complete -o filenames -F _remulingka remulingka\n",
    );
    text
}

/// A text inside single quotes of a shell, without what completions give a meaning.
fn plain(help: &str) -> String {
    help.replace('\'', "").replace(['[', ']', ':'], " ")
}

fn zsh() -> String {
    let mut text = String::from(
        "#compdef remulingka\n# Made by `remulingka completion zsh`.\n\
         _remulingka() {\n    if (( CURRENT == 2 )); then\n        local -a commands=(\n",
    );
    for command in &COMMANDS {
        text.push_str(&format!(
            "            '{}:{}'\n",
            command.name,
            plain(command.summary)
        ));
    }
    text.push_str(
        "        )\n        _describe command commands\n        return\n    fi\n    \
         local command=$words[2]\n    shift words\n    (( CURRENT-- ))\n    case $command in\n",
    );
    for command in &COMMANDS {
        text.push_str(&format!("    {})\n        _arguments \\\n", command.name));
        for word in words(command) {
            let action = match (word.takes, words_of(word.value)) {
                (Takes::Nothing, _) => String::new(),
                (Takes::File, _) => ":file:_files".to_string(),
                (Takes::Text, values) if values.is_empty() => ":value:".to_string(),
                (Takes::Text, values) => format!(":value:({})", values.join(" ")),
            };
            let help = plain(&word.help);
            text.push_str(&format!(
                "            '--{}[{help}]{action}' \\\n",
                word.name
            ));
            if let Some(short) = word.short {
                text.push_str(&format!("            '-{short}[{help}]{action}' \\\n"));
            }
        }
        text.push_str("            '*:file:_files' ;;\n");
    }
    text.push_str("    esac\n}\n_remulingka \"$@\"\n");
    text
}

fn fish() -> String {
    let mut text =
        String::from("# fish completion for remulingka, made by `remulingka completion fish`.\n");
    for command in &COMMANDS {
        text.push_str(&format!(
            "complete -c remulingka -n __fish_use_subcommand -a {} -d '{}'\n",
            command.name,
            plain(command.summary)
        ));
        for word in words(command) {
            let short = word
                .short
                .map_or(String::new(), |short| format!(" -s {short}"));
            let values = words_of(word.value);
            let takes = match word.takes {
                Takes::Nothing => String::new(),
                Takes::File => " -r".to_string(),
                Takes::Text if values.is_empty() => " -x".to_string(),
                Takes::Text => format!(" -x -a '{}'", values.join(" ")),
            };
            text.push_str(&format!(
                "complete -c remulingka -n '__fish_seen_subcommand_from {}' -l {}{short}{takes} -d '{}'\n",
                command.name,
                word.name,
                plain(&word.help)
            ));
        }
    }
    text
}

/// A text for the manual page.
fn escaped(text: &str) -> String {
    let text = filled(text).replace('\\', "\\e").replace('-', "\\-");
    let lines = text
        .lines()
        .map(|line| match line.starts_with(['.', '\'']) {
            true => format!("\\&{line}"),
            false => line.to_string(),
        });
    lines.collect::<Vec<String>>().join("\n")
}

/// An entry of a list in the manual page.
fn entry(name: &str, help: &str) -> String {
    let help = escaped(help).replace('\n', " ");
    format!(".TP\n.B {}\n{help}\n", escaped(name))
}

/// The section of a command in the manual page.
fn section(command: &Command) -> String {
    let (name, usage) = (command.name.to_uppercase(), escaped(&command.usage()));
    let about = escaped(command.about).replace("\n\n", "\n.PP\n");
    let mut text = format!(".SH {name}\n.B {usage}\n.PP\n{about}\n");
    for group in command.groups {
        text.push_str(&format!(".SS {}\n", escaped(group.heading)));
        for setting in command.settings().filter(|_| group.settings) {
            let name = format!("--{} {}", setting.name, setting.value);
            text.push_str(&entry(&name, setting.help));
        }
        for option in group.options {
            text.push_str(&entry(&option.shown(), option.help));
        }
    }
    text.push_str(".SS Examples\n.nf\n");
    for example in command.examples {
        text.push_str(&format!("{}\n", escaped(example)));
    }
    text + ".fi\n"
}

/// `remulingka manual`
pub fn manual(arguments: &Arguments) -> Result<(), Failure> {
    let [] = arguments.exactly()?;
    let mut text = format!(
        ".TH REMULINGKA 1 \"\" \"remulingka {}\"\n.SH NAME\nremulingka \\- packs images of many \
         bands without loss\n.SH SYNOPSIS\n",
        remulingka::VERSION
    );
    for command in &COMMANDS {
        text.push_str(&format!(".B {}\n.br\n", escaped(&command.usage())));
    }
    let about = "Packs ENVI images into cube files (CCSDS 123.0-B-1, sample-adaptive coder) and \
                 opens them again, every sample as it was. An image has at most {limits}.";
    text.push_str(&format!(".SH DESCRIPTION\n{}\n.PP\n", escaped(about)));
    text.push_str("For a file \\- is standard input or output.\n.SS Options of every command\n");
    for option in &COMMON {
        text.push_str(&entry(&option.shown(), option.help));
    }
    text.extend(COMMANDS.iter().map(section));
    text.push_str(".SH EXIT STATUS\n");
    for (status, meaning) in STATUSES {
        text.push_str(&entry(&status.to_string(), meaning));
    }
    text.push_str(".SH FILES\n");
    for (name, meaning) in FILES {
        text.push_str(&entry(name, meaning));
    }
    print(&text)
}

/// The files that the program makes beside those it is asked for.
const FILES: [(&str, &str); 2] = [
    (
        "FILE.envi",
        "the stored header of the cube FILE: the fields of the image's ENVI header and the \
         cube's sum",
    ),
    (
        ".remulingka-*",
        "files being written (.part) or replaced (.old); a run that was killed may leave some",
    ),
];
