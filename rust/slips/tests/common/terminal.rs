//! A terminal for the tool to write to.
#![allow(dead_code)] // each file of tests takes what it needs
use std::ffi::{c_int, c_ulong};
use std::fs::{File, OpenOptions};
use std::io::Read;
use std::os::fd::AsRawFd;
use std::process::{Child, Command, Stdio};

unsafe extern "C" {
    fn ioctl(file: c_int, request: c_ulong, ...) -> c_int;
}

// Linux's numbers
const TIOCSPTLCK: c_ulong = 0x4004_5431;
const TIOCGPTN: c_ulong = 0x8004_5430;
const TIOCSWINSZ: c_ulong = 0x5414;

/// The near end of a terminal, and the far one that a program takes.
pub struct Terminal {
    near: File,
    far: File,
}

impl Terminal {
    /// A terminal of so many columns, or none where the system has no such devices.
    pub fn new(columns: u16) -> Option<Terminal> {
        let open = |path: &str| OpenOptions::new().read(true).write(true).open(path).ok();
        let near = open("/dev/ptmx")?;
        let (unlocked, mut number): (c_int, c_int) = (0, 0);
        let size = [24, columns, 0, 0];
        // SAFETY: each request reads or writes what its pointer points to
        let answers = unsafe {
            [
                ioctl(near.as_raw_fd(), TIOCSPTLCK, &raw const unlocked),
                ioctl(near.as_raw_fd(), TIOCGPTN, &raw mut number),
                ioctl(near.as_raw_fd(), TIOCSWINSZ, size.as_ptr()),
            ]
        };
        if answers != [0; 3] {
            return None;
        }
        let far = open(&format!("/dev/pts/{number}"))?;
        Some(Terminal { near, far })
    }

    fn far(&self) -> Stdio {
        self.far.try_clone().unwrap().into()
    }

    /// Starts a command whose standard error is the terminal.
    pub fn start(&self, command: &mut Command) -> Child {
        command.stdout(Stdio::null()).stderr(self.far());
        command.spawn().unwrap()
    }

    /// What comes next.
    pub fn read(&mut self) -> String {
        let mut bytes = [0; 4096];
        let count = self.near.read(&mut bytes).unwrap();
        String::from_utf8_lossy(&bytes[..count]).into_owned()
    }

    /// What a command prints on the terminal, up to a word of its last line.
    pub fn output(&mut self, command: &mut Command, last: &str) -> String {
        command.stdout(self.far()).stderr(Stdio::null());
        assert!(command.status().unwrap().success());
        let mut text = String::new();
        while !text.contains(last) {
            text += &self.read();
        }
        text
    }
}
