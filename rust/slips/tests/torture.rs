//! Torture as a user meets it: what it rolls, what it takes, and how it is stopped.
mod common;
#[path = "common/terminal.rs"]
mod terminal;

use common::{Ran, Tool, folder};
use std::fs;
use std::process::{Command, Stdio};
use std::time::{Duration, Instant};
use terminal::Terminal;

#[test]
fn torture_rolls_only_shapes_that_go() {
    let tool = Tool(folder("rolls"));
    for seed in ["1", "2", "3", "4", "5", "6"] {
        for given in [["--page", "64"], ["--page", "20"], ["--start", "4096"]] {
            let words = [&["torture", "--calls", "30", "--seed", seed][..], &given].concat();
            let ran = tool.ran(&words);
            assert_eq!(ran.status, Some(0), "{words:?} {}", ran.err);
        }
    }
    // what no roll can mend is refused by its name
    assert_eq!(tool.status(&["torture", "--page", "30"]), 9);
    let given = |words: &[&str]| tool.status(&[&["torture"], words].concat());
    assert_eq!(given(&["--page", "65536", "--calls", "3"]), 0);
    assert_eq!(given(&["--page", "65540"]), 16);
    assert_eq!(given(&["--pages", "256", "--calls", "3"]), 0);
    assert_eq!(given(&["--pages", "257"]), 16);
    assert_eq!(given(&["--page", "64", "--start", "32"]), 10);
    assert_eq!(given(&["--word", "0"]), 9);
    assert_eq!(given(&["--word", "64"]), 14);
    assert_eq!(given(&["--word", "5"]), 15);
    assert_eq!(given(&["--start", "4294967292"]), 64);
}

#[test]
fn a_start_at_the_top_of_the_addresses_takes_little_memory() {
    let tool = Tool(folder("top"));
    // the addresses of one image are 4 GiB; those of a second one are refused
    let line = "ulimit -v 6000000; exec \"$SLIPS\" torture --start 4294963200 --calls 50";
    let ran = tool.shell(line);
    assert_eq!(ran.status, Some(0), "{}", ran.err);
    assert!(
        ran.out.starts_with("torture, seed 1: 50 calls in "),
        "{}",
        ran.out
    );
}

/// Whether a process has a handler for SIGINT.
fn heeds_interrupts(process: u32) -> bool {
    let status = fs::read_to_string(format!("/proc/{process}/status")).unwrap_or_default();
    let caught = status.lines().find_map(|line| line.strip_prefix("SigCgt:"));
    let caught = caught.and_then(|digits| u64::from_str_radix(digits.trim(), 16).ok());
    caught.is_some_and(|caught| caught & 2 == 2)
}

#[test]
fn an_interrupt_prints_the_summary() {
    let tool = Tool(folder("interrupt"));
    let mut torture = tool.command(&["torture", "--calls", "1000000000"]);
    let torture = torture
        .stdout(Stdio::piped())
        .stderr(Stdio::piped())
        .spawn()
        .unwrap();
    let began = Instant::now();
    while !heeds_interrupts(torture.id()) && began.elapsed() < Duration::from_secs(5) {
        std::thread::sleep(Duration::from_millis(10));
    }
    std::thread::sleep(Duration::from_millis(50));
    let kill = format!("kill -INT {}", torture.id());
    assert!(
        Command::new("sh")
            .args(["-c", &kill])
            .status()
            .unwrap()
            .success()
    );
    let ran = Ran::from(torture.wait_with_output().unwrap());
    assert_eq!(ran.status, Some(130));
    assert!(
        ran.out.starts_with("torture, seed 1, stopped: "),
        "{}",
        ran.out
    );
    assert!(ran.out.contains(" calls in "), "{}", ran.out);
    assert_eq!(ran.err, "");
}

#[test]
fn the_line_of_progress_fits_the_terminal() {
    let Some(mut terminal) = Terminal::new(50) else {
        eprintln!("left out: there are no terminals here");
        return;
    };
    let tool = Tool(folder("progress"));
    let mut torture = tool.command(&["torture", "--calls", "1000000000"]);
    let mut torture = terminal.start(torture.env("TERM", "xterm"));
    let mut seen = String::new();
    while seen.matches("\r\x1b[K").count() < 3 {
        seen += &terminal.read();
    }
    torture.kill().unwrap();
    torture.wait().unwrap();
    let mut lines: Vec<&str> = seen.split("\r\x1b[K").collect();
    // the last one may have come in part
    lines.pop();
    assert!(
        lines.iter().any(|line| line.starts_with("of 1000000000: ")),
        "{seen:?}"
    );
    assert!(lines.iter().all(|line| line.len() < 50), "{seen:?}");
}
