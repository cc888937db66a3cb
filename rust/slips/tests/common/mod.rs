//! The tool as a user runs it, in a folder of its own.
#![allow(dead_code)] // each file of tests takes what it needs
use std::fs;
use std::path::{Path, PathBuf};
use std::process::{Command, Output, Stdio};

/// A folder of its own for a test.
pub fn folder(name: &str) -> PathBuf {
    let folder = Path::new(env!("CARGO_TARGET_TMPDIR")).join(name);
    let _ = fs::remove_dir_all(&folder);
    fs::create_dir_all(&folder).unwrap();
    folder
}

pub struct Tool(pub PathBuf);

/// What a run left: exit status, standard output, standard error.
pub struct Ran {
    pub status: Option<i32>,
    pub out: String,
    pub err: String,
}

impl From<Output> for Ran {
    fn from(output: Output) -> Ran {
        Ran {
            status: output.status.code(),
            out: String::from_utf8(output.stdout).unwrap(),
            err: String::from_utf8(output.stderr).unwrap(),
        }
    }
}

impl Tool {
    pub fn command(&self, words: &[&str]) -> Command {
        let mut command = Command::new(env!("CARGO_BIN_EXE_slips"));
        command.current_dir(&self.0).args(words);
        command.stdin(Stdio::null());
        command
    }

    pub fn ran(&self, words: &[&str]) -> Ran {
        self.command(words).output().unwrap().into()
    }

    /// A line of the shell in the folder; $SLIPS is the tool.
    pub fn shell(&self, line: &str) -> Ran {
        let mut shell = Command::new("sh");
        let shell = shell.current_dir(&self.0).args(["-c", line]);
        let shell = shell.env("SLIPS", env!("CARGO_BIN_EXE_slips"));
        shell.output().unwrap().into()
    }

    /// The exit status, and what was printed.
    pub fn run(&self, words: &[&str]) -> (i32, String) {
        let ran = self.ran(words);
        (ran.status.unwrap(), ran.out)
    }

    pub fn status(&self, words: &[&str]) -> i32 {
        self.run(words).0
    }

    pub fn image(&self, name: &str) -> Vec<u8> {
        fs::read(self.0.join(name)).unwrap()
    }

    pub fn write(&self, name: &str, bytes: &[u8]) {
        fs::write(self.0.join(name), bytes).unwrap();
    }

    /// An erased image `a` with words of 4.
    pub fn new_image(&self, page: &str, pages: &str) {
        let words = ["new", "a", "--word", "4", "--page", page, "--pages", pages];
        assert_eq!(self.status(&words), 0);
    }

    pub fn push(&self, slips: &[&str]) {
        for slip in slips {
            assert_eq!(self.status(&["push", "a", slip]), 0);
        }
    }

    /// An image `a` of pages of 64, words of 4: each page takes two of the slips, which have 18 bytes.
    pub fn two_a_page(&self, pages: &str, slips: usize) {
        self.new_image("64", pages);
        let slips: Vec<String> = (1..=slips)
            .map(|n| format!("slip number {n:2}, so"))
            .collect();
        let slips: Vec<&str> = slips.iter().map(String::as_str).collect();
        self.push(&slips);
    }
}
