//! The command line. A word that a command does not take is refused by its name.

use std::path::PathBuf;
use std::str::FromStr;

use seat::Subject;

use crate::cases::case::Kind;

/// A command, what it takes, and how it is written.
struct Form {
    name: &'static str,
    flags: &'static [&'static str],
    words: usize,
    usage: &'static str,
}

const COMMANDS: [Form; 8] = [
    Form {
        name: "compare",
        flags: &["--cases", "--seed", "--kind", "--voice"],
        words: 0,
        usage:
            "compare [--cases N] [--seed S] [--kind kmeans|plain|celled|all] [--voice page|library]",
    },
    Form {
        name: "slips",
        flags: &["--cases", "--seed", "--smallest"],
        words: 0,
        usage: "slips [--cases N] [--seed S] [--smallest NUMBER]",
    },
    Form {
        name: "distance-check",
        flags: &["--cases", "--seed"],
        words: 0,
        usage: "distance-check [--cases N] [--seed S]",
    },
    Form { name: "record", flags: &[], words: 1, usage: "record [FOLDER]" },
    Form {
        name: "replay",
        flags: &["--voice"],
        words: usize::MAX,
        usage: "replay [FILE..] [--voice page|library]",
    },
    Form {
        name: "disagree",
        flags: &["--voice"],
        words: 0,
        usage: "disagree [--voice page|library]",
    },
    Form {
        name: "bench",
        flags: &["--kind", "--voice", "--quick"],
        words: 0,
        usage: "bench [--kind plain|celled|all] [--voice page|library] [--quick]",
    },
    Form {
        name: "fuzz",
        flags: &["--seed", "--call", "--heap"],
        words: 1,
        usage: "fuzz [CALLS] [--seed S] [--call NUMBER] [--heap]",
    },
];

/// The flags that stand alone; after any other comes its value.
const SWITCHES: [&str; 2] = ["--heap", "--quick"];

/// What the command line says.
pub struct Options {
    form: &'static Form,
    flags: Vec<(String, String)>,
    words: Vec<String>,
}

/// All commands, a line each.
fn usage() -> String {
    let lines: Vec<String> = COMMANDS.iter().map(|form| format!("  {}", form.usage)).collect();
    format!("commands:\n{}", lines.join("\n"))
}

impl Form {
    /// Why a line cannot be, and how the command is written.
    fn refuse(&self, words: String) -> String {
        format!("{words}\n  {}", self.usage)
    }
}

impl Options {
    /// Reads the command line, or says which word of it cannot be.
    pub fn read(mut line: impl Iterator<Item = String>) -> Result<Options, String> {
        let name = line.next().ok_or_else(usage)?;
        let form = COMMANDS.iter().find(|form| form.name == name);
        let form = form.ok_or_else(|| format!("there is no command {name}\n{}", usage()))?;
        let mut options = Options { form, flags: Vec::new(), words: Vec::new() };
        while let Some(word) = line.next() {
            if !word.starts_with("--") {
                options.words.push(word);
                continue;
            }
            if !form.flags.contains(&word.as_str()) {
                return Err(form.refuse(format!("{name} has no flag {word}")));
            }
            let value = match SWITCHES.contains(&word.as_str()) {
                true => String::new(),
                false => line.next().ok_or_else(|| form.refuse(format!("{word} needs a value")))?,
            };
            options.flags.push((word, value));
        }
        match options.words.get(form.words) {
            Some(word) => Err(form.refuse(format!("{name} takes no {word}"))),
            None => Ok(options),
        }
    }

    /// The command.
    pub fn command(&self) -> &'static str {
        self.form.name
    }

    /// The value of a flag, if it is given; the last one counts.
    fn value(&self, flag: &str) -> Option<&str> {
        self.flags.iter().rev().find(|(name, _)| name == flag).map(|(_, value)| value.as_str())
    }

    /// Whether a flag is given.
    pub fn is_given(&self, flag: &str) -> bool {
        self.value(flag).is_some()
    }

    /// The number that a flag gives.
    pub fn number<T: FromStr>(&self, flag: &str) -> Result<Option<T>, String> {
        self.value(flag).map(|word| number(flag, word)).transpose()
    }

    /// The number that stands without a flag.
    pub fn count(&self) -> Result<Option<usize>, String> {
        self.words.first().map(|word| number(self.form.name, word)).transpose()
    }

    /// The files or folders named.
    pub fn paths(&self) -> Vec<PathBuf> {
        self.words.iter().map(PathBuf::from).collect()
    }

    /// The kinds asked for; none if that is left open.
    pub fn kind(&self) -> Result<Option<Kind>, String> {
        match self.value("--kind") {
            None | Some("all") => Ok(None),
            Some(word) => {
                let kind = Kind::ALL.into_iter().find(|kind| kind.name() == word);
                kind.map(Some).ok_or_else(|| format!("there is no kind {word}"))
            }
        }
    }

    /// The voice set beside the Rust: the library if it is linked, unless another is asked for.
    pub fn voice(&self) -> Result<&'static dyn Subject, String> {
        let default = if cfg!(feature = "library") { "library" } else { "page" };
        match self.value("--voice").unwrap_or(default) {
            "page" => Ok(&page::Page),
            #[cfg(feature = "library")]
            "library" => Ok(&crate::voices::library::Library),
            #[cfg(not(feature = "library"))]
            "library" => {
                Err("the library is not linked: build with --features library".to_string())
            }
            word => Err(format!("there is no voice {word}")),
        }
    }
}

/// A word as a number.
fn number<T: FromStr>(whose: &str, word: &str) -> Result<T, String> {
    word.parse().map_err(|_| format!("{whose} needs a number, not {word}"))
}

#[cfg(test)]
mod tests {
    use super::*;

    /// Why a command line is refused.
    fn refused(line: &[&str]) -> String {
        Options::read(line.iter().map(|word| word.to_string())).err().expect("it is refused")
    }

    /// Every flag that some command has is refused, by its name, by every command that has it not.
    #[test]
    fn flags_of_other_commands() {
        let all: Vec<&str> = COMMANDS.iter().flat_map(|form| form.flags).copied().collect();
        for form in &COMMANDS {
            for flag in all.iter().filter(|flag| !form.flags.contains(flag)) {
                let words = format!("{} has no flag {flag}\n", form.name);
                assert!(refused(&[form.name, flag, "1"]).starts_with(&words));
            }
        }
    }

    /// Words and values that are too many or missing are named too.
    #[test]
    fn words_that_do_not_fit() {
        assert!(refused(&["record", "a", "b"]).starts_with("record takes no b\n"));
        assert!(refused(&["compare", "--cases"]).starts_with("--cases needs a value\n"));
        assert!(refused(&["look"]).starts_with("there is no command look\n"));
    }
}
