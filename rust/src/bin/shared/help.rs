//! What is made from the description of a command: the text of `--help`, the manual page and the
//! completions of shells. Tested with the commands, here and in tests/options.rs.

use super::options::{Command, Described};

/// An option as it is written: `-f, --format FORMAT`.
fn written(option: &Described) -> String {
    let short = option.short.map_or(String::new(), |c| format!("-{c}, "));
    let value = option.value.map_or(String::new(), |it| format!(" {it}"));
    format!("{short}--{}{value}", option.long)
}

/// The values of an option that has few, as a sentence.
fn choices(option: &Described) -> String {
    match option.choices {
        [] => String::new(),
        choices => format!("{}: {}.", option.value.unwrap_or(""), choices.join(", ")),
    }
}

/// The text of `--help`.
pub fn help(command: &Command) -> String {
    let Command { name, summary, .. } = command;
    let mut text = format!("{name}: {summary}\n\n{}\n", command.usage());
    for group in command.groups {
        text.push_str(&format!("\n{}:\n", group.title));
        for option in group.options {
            text.push_str(&format!("  {}\n", written(option)));
            for line in option.help.lines() {
                text.push_str(&format!("      {line}\n"));
            }
        }
    }
    for (title, body) in command.sections {
        text.push_str(&format!("\n{title}:\n"));
        for line in body.lines() {
            text.push_str(&format!("  {line}\n"));
        }
    }
    text
}

/// A text in the language of manual pages: nothing in it is a command.
fn roff(text: &str) -> String {
    let text = text.replace('\\', "\\e").replace('-', "\\-");
    let guarded = |line: &str| match line.starts_with(['.', '\'']) {
        true => format!("\\&{line}"),
        false => String::from(line),
    };
    text.lines().map(guarded).collect::<Vec<_>>().join("\n")
}

/// The manual page.
pub fn man(command: &Command) -> String {
    let version = env!("CARGO_PKG_VERSION");
    let name = roff(command.name);
    let title = command.name.to_ascii_uppercase();
    let mut page = format!(
        ".TH {} 1 \"\" \"mireladle {version}\" \"User Commands\"\n.SH NAME\n{} \\- {}\n.SH SYNOPSIS\n",
        roff(&title),
        name,
        roff(command.summary)
    );
    for usage in command.usages {
        page.push_str(&format!(".B {name}\n{}\n.br\n", roff(usage)));
    }
    page.push_str(".SH OPTIONS\n");
    for group in command.groups {
        page.push_str(&format!(".SS {}\n", roff(group.title)));
        for option in group.options {
            page.push_str(&format!(".TP\n.B {}\n", roff(&written(option))));
            page.push_str(
                &format!("{}\n{}\n", roff(option.help), roff(&choices(option)))
                    .replace("\n\n", "\n"),
            );
        }
    }
    for (title, body) in command.sections {
        let title = title.to_ascii_uppercase();
        page.push_str(&format!(".SH {}\n.nf\n{}\n.fi\n", roff(&title), roff(body)));
    }
    page
}

/// The completions for a shell; none for one that is not known.
pub fn completions(command: &Command, shell: &str) -> Option<String> {
    match shell {
        "bash" => Some(bash(command)),
        "zsh" => Some(zsh(command)),
        "fish" => Some(fish(command)),
        _ => None,
    }
}

fn bash(command: &Command) -> String {
    let name = command.name;
    let function = format!("_{}", name.replace('-', "_"));
    let all: Vec<String> = command
        .options()
        .map(|it| format!("--{}", it.long))
        .collect();
    let mut cases = String::new();
    for option in command.options().filter(|it| !it.choices.is_empty()) {
        let short = option.short.map_or(String::new(), |c| format!("|-{c}"));
        cases.push_str(&format!(
            "    --{}{short}) COMPREPLY=($(compgen -W \"{}\" -- \"$word\")); return ;;\n",
            option.long,
            option.choices.join(" ")
        ));
    }
    format!(
        "# completions of {name} for bash\n\
         {function}() {{\n  \
           local word=${{COMP_WORDS[COMP_CWORD]}} before=${{COMP_WORDS[COMP_CWORD-1]}}\n  \
           case $before in\n{cases}  esac\n  \
           case $word in\n    \
             -*) COMPREPLY=($(compgen -W \"{}\" -- \"$word\")) ;;\n    \
             *) COMPREPLY=($(compgen -f -- \"$word\")) ;;\n  \
           esac\n}}\n\
         complete -o filenames -F {function} {name}\n",
        all.join(" ")
    )
}

/// The first sentence of an option's help, without what a shell would take for a sign.
fn brief(option: &Described) -> String {
    let text = option.help.replace('\n', " ");
    let end = text.find([':', ';', '.']).unwrap_or(text.len());
    let front = text.get(..end).unwrap_or("");
    front.replace(['\'', '[', ']', '`', '"'], "")
}

fn zsh(command: &Command) -> String {
    let name = command.name;
    let mut lines = String::new();
    for option in command.options() {
        let value = match (option.value, option.choices) {
            (None, _) => String::new(),
            (Some(value), []) => format!(":{}:_files", value.replace(['[', ']', ','], " ")),
            (Some(value), choices) => format!(":{value}:({})", choices.join(" ")),
        };
        let brief = brief(option);
        lines.push_str(&format!("  '--{}[{brief}]{value}' \\\n", option.long));
        if let Some(short) = option.short {
            lines.push_str(&format!("  '-{short}[{brief}]{value}' \\\n"));
        }
    }
    format!("#compdef {name}\n_arguments \\\n{lines}  '*:file:_files'\n")
}

fn fish(command: &Command) -> String {
    let name = command.name;
    let mut lines = String::new();
    for option in command.options() {
        let short = option.short.map_or(String::new(), |c| format!(" -s {c}"));
        let value = match (option.value, option.choices) {
            (None, _) => String::new(),
            (Some(_), []) => String::from(" -r"),
            (Some(_), choices) => format!(" -x -a '{}'", choices.join(" ")),
        };
        let brief = brief(option);
        lines.push_str(&format!(
            "complete -c {name} -l {}{short}{value} -d '{brief}'\n",
            option.long
        ));
    }
    lines
}

#[cfg(test)]
mod tests {
    use std::collections::HashSet;

    use super::*;
    use crate::options::COMMAND;

    #[test]
    fn every_option_is_in_everything_that_is_made() {
        let texts = [help(&COMMAND), man(&COMMAND).replace("\\-", "-")];
        let shells = ["bash", "zsh"].map(|shell| completions(&COMMAND, shell).unwrap());
        for option in COMMAND.options() {
            let long = format!("--{}", option.long);
            assert!(
                texts.iter().chain(&shells).all(|it| it.contains(&long)),
                "{long}"
            );
            let fish = completions(&COMMAND, "fish").unwrap();
            assert!(fish.contains(&format!("-l {}", option.long)), "{long}");
        }
        assert_eq!(completions(&COMMAND, "tcsh"), None);
    }

    #[test]
    fn no_two_options_have_one_name() {
        let longs: Vec<&str> = COMMAND.options().map(|it| it.long).collect();
        let shorts: Vec<char> = COMMAND.options().filter_map(|it| it.short).collect();
        let differ = |count: usize, all: usize| assert_eq!(count, all, "{longs:?} {shorts:?}");
        differ(longs.iter().collect::<HashSet<_>>().len(), longs.len());
        differ(shorts.iter().collect::<HashSet<_>>().len(), shorts.len());
        for (long, _) in COMMAND.needs {
            assert!(longs.contains(long), "{long}");
        }
    }

    #[test]
    fn no_line_of_the_help_is_long() {
        for line in help(&COMMAND).lines() {
            assert!(line.chars().count() <= 92, "{line}");
        }
    }

    #[test]
    fn no_line_of_the_manual_page_is_a_command_by_mistake() {
        let known = [".TH", ".SH", ".SS", ".B", ".br", ".TP", ".nf", ".fi"];
        for line in man(&COMMAND).lines().filter(|line| line.starts_with('.')) {
            let command = line.split(' ').next().unwrap();
            assert!(known.contains(&command), "{line}");
        }
    }
}
