//! The description of a command line, from which `--help`, the man page, the completions and the
//! reader of arguments are made. An option that is not described does not exist.

/// One option.
pub struct Described {
    /// Its name behind `--`.
    pub long: &'static str,
    /// Its letter behind `-`.
    pub short: Option<char>,
    /// What its value is called; none where it takes none.
    pub value: Option<&'static str>,
    /// The values that it can have, where they are few.
    pub choices: &'static [&'static str],
    /// What it does, in lines of at most 76 characters.
    pub help: &'static str,
}

/// A group of options under a heading.
pub struct Group {
    pub title: &'static str,
    pub options: &'static [Described],
}

pub const fn flag(long: &'static str, short: Option<char>, help: &'static str) -> Described {
    Described {
        long,
        short,
        value: None,
        choices: &[],
        help,
    }
}

pub const fn valued(
    long: &'static str,
    short: Option<char>,
    value: &'static str,
    help: &'static str,
) -> Described {
    Described {
        long,
        short,
        value: Some(value),
        choices: &[],
        help,
    }
}

pub const fn one_of(
    long: &'static str,
    short: Option<char>,
    value: &'static str,
    choices: &'static [&'static str],
    help: &'static str,
) -> Described {
    Described {
        long,
        short,
        value: Some(value),
        choices,
        help,
    }
}

/// A command.
pub struct Command {
    pub name: &'static str,
    pub summary: &'static str,
    /// What stands behind the name.
    pub usages: &'static [&'static str],
    pub groups: &'static [Group],
    /// Sections of text, each a heading and what stands below it.
    pub sections: &'static [(&'static str, &'static str)],
    /// What an option needs, where that is not said by what its value is called.
    pub needs: &'static [(&'static str, &'static str)],
}

impl Command {
    /// All options.
    pub fn options(&self) -> impl Iterator<Item = &'static Described> {
        self.groups.iter().flat_map(|group| group.options)
    }

    /// The usage, as a message about wrong arguments shows it.
    pub fn usage(&self) -> String {
        let lines = self.usages.iter();
        let lines: Vec<String> = lines.map(|it| format!("{} {it}", self.name)).collect();
        format!("usage: {}", lines.join("\n       "))
    }

    /// The version, as `--version` prints it.
    pub fn version(&self) -> String {
        format!("{} {}\n", self.name, env!("CARGO_PKG_VERSION"))
    }
}

// Options of several commands.

pub const DELIMITER: Described = valued(
    "delimiter",
    Some('d'),
    "CHARACTER",
    "What parts the columns, in the place of a comma.",
);
pub const TAB: Described = flag("tab", Some('t'), "Tabs part the columns.");
pub const NO_HEADER: Described = flag(
    "no-header",
    None,
    "The first line is a row. The columns are called c0, c1 and so on.",
);
pub const COLOR: Described = one_of(
    "color",
    None,
    "WHEN",
    &["auto", "always", "never"],
    "Colours: on a terminal (auto, the default; never where NO_COLOR is\n\
         set), always or never.",
);
/// What every command has.
pub const ABOUT: Group = Group {
    title: "About",
    options: &[
        flag("help", Some('h'), "Print this."),
        flag("version", Some('V'), "Print the version."),
        flag("man", None, "Print the manual page, for man(1)."),
        one_of(
            "completions",
            None,
            "SHELL",
            &["bash", "zsh", "fish"],
            "Print the completions for a shell.",
        ),
    ],
};
