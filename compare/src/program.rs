//! A program that is run in a temporary folder.

use std::fs;
use std::io;
use std::path::{Path, PathBuf};
use std::process::{Command, Output};

use crate::mismatch::Mismatch;

/// A file of the working folder.
#[derive(Clone, Copy, PartialEq, Eq)]
pub enum Supply {
    Written,
    Missing,
    /// A folder of that name: it can be opened but not read.
    Unreadable,
}

impl Supply {
    pub const ALL: [Supply; 3] = [Supply::Written, Supply::Missing, Supply::Unreadable];

    /// What the program sees of a file's bytes.
    pub fn seen(self, bytes: &[u8]) -> &[u8] {
        match self {
            Supply::Written => bytes,
            Supply::Missing | Supply::Unreadable => &[],
        }
    }

    /// What the program tells of a file on standard error.
    pub fn told(self, program: &str, file: &str) -> String {
        match self {
            Supply::Written => String::new(),
            Supply::Missing => format!("{program}: {file}: No such file or directory\n"),
            Supply::Unreadable => format!("{program}: {file}: Is a directory\n"),
        }
    }
}

pub struct Program {
    path: PathBuf,
    folder: PathBuf,
}

impl Program {
    /// The program at this path, with a temporary working folder.
    pub fn at(path: &Path) -> io::Result<Self> {
        let name = format!("m2m-program-{}", std::process::id());
        let folder = std::env::temp_dir().join(name);
        fs::create_dir_all(&folder)?;
        Ok(Program {
            path: fs::canonicalize(path)?,
            folder,
        })
    }

    /// Puts a file into the working folder, in the place of one that was there.
    pub fn supply(&self, file: &str, bytes: &[u8], supply: Supply) -> Result<(), Mismatch> {
        let path = self.folder.join(file);
        let _ = fs::remove_dir(&path).or_else(|_| fs::remove_file(&path));
        let supplied = match supply {
            Supply::Written => fs::write(&path, bytes),
            Supply::Missing => Ok(()),
            Supply::Unreadable => fs::create_dir(&path),
        };
        supplied.map_err(|error| Mismatch::of("file of the program", "", error))
    }

    pub fn run(&self, words: &[&str]) -> Result<Output, Mismatch> {
        let mut command = Command::new(&self.path);
        let command = command.args(words).env("LC_ALL", "C");
        let output = command.current_dir(&self.folder).output();
        output.map_err(|error| Mismatch::of("run of the program", "", error))
    }

    /// Runs the program and holds standard output and standard error against these.
    pub fn hold(&self, words: &[&str], printed: &[u8], told: &str) -> Result<(), Mismatch> {
        let found = self.run(words)?;
        for (what, expected, found) in [
            ("printed text", printed, &found.stdout),
            ("standard error", told.as_bytes(), &found.stderr),
        ] {
            if expected != found {
                let shown = [expected, found].map(|text| text.escape_ascii().to_string());
                return Err(Mismatch::of(what, &shown[0], &shown[1]));
            }
        }
        match found.status.code() {
            Some(0) => Ok(()),
            _ => Err(Mismatch::of("exit code", "exit status: 0", found.status)),
        }
    }
}

impl Drop for Program {
    fn drop(&mut self) {
        let _ = fs::remove_dir_all(&self.folder);
    }
}
