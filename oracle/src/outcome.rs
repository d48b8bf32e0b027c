//! What came of a command: one value decides both its last line and its exit code, so the two cannot
//! say different things.

use std::process::ExitCode;

/// The words of the last line, and whether all is well.
pub struct Outcome {
    well: bool,
    words: String,
}

impl Outcome {
    /// All is well exactly if `well` holds.
    pub fn new(well: bool, words: String) -> Outcome {
        Outcome { well, words }
    }

    /// Something kept the command from its end.
    pub fn not_well(words: String) -> Outcome {
        Outcome::new(false, words)
    }

    /// How many differences were found in so many comparisons; none at all show nothing.
    pub fn differences(found: usize, compared: usize) -> Outcome {
        match compared {
            0 => Outcome::not_well("nothing was compared".to_string()),
            _ => Outcome::new(found == 0, format!("differences {found}")),
        }
    }

    /// Prints the last line, which begins with NOT WELL exactly if the exit code is 1.
    pub fn tell(&self) -> ExitCode {
        match self.well {
            true => {
                println!("{}", self.words);
                ExitCode::SUCCESS
            }
            false => {
                println!("NOT WELL: {}", self.words);
                ExitCode::FAILURE
            }
        }
    }
}
