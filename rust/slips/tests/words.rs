//! What the tool says and how it is spoken to: limits, numbers, help, outputs that nobody reads.
mod common;
#[path = "common/terminal.rs"]
mod terminal;

use common::{Ran, Tool, folder};
use std::process::Stdio;
use terminal::Terminal;

#[test]
fn a_limit_is_named() {
    let tool = Tool(folder("limits"));
    tool.write("dump", &[0xff; 130]);
    let shaped = |words: &[&str]| tool.ran(&[&["list", "dump", "--word", "4"], words].concat());
    let ran = shaped(&["--page", "64"]);
    assert_eq!(ran.status, Some(0));
    assert!(
        ran.err.contains("the last 2 bytes are no whole page of 64"),
        "{}",
        ran.err
    );
    assert!(ran.err.contains("--pages"), "{}", ran.err);
    assert_eq!(
        shaped(&["--page", "64", "--pages", "2"]).err,
        "slips: no slip waits\n"
    );
    let ran = shaped(&["--page", "256"]);
    assert_eq!(ran.status, Some(12));
    assert!(
        ran.err
            .contains("has 130 bytes from 0 on, less than a page of 256"),
        "{}",
        ran.err
    );
    let ran = shaped(&["--page", "64", "--pages", "3"]);
    assert_eq!(ran.status, Some(17));
    assert!(ran.err.contains("give --pages, at most 2"), "{}", ran.err);
}

#[test]
fn a_dump_of_a_whole_chip_is_told_which_limit_it_passes() {
    let tool = Tool(folder("whole-chip"));
    let shaped = |page: &str| tool.ran(&["list", "dump", "--word", "4", "--page", page]);
    tool.write("dump", &[0xff; 256 * 64]);
    assert_eq!(shaped("64").status, Some(0));
    tool.write("dump", &[0xff; 257 * 64]);
    let ran = shaped("64");
    assert_eq!(ran.status, Some(16));
    assert!(
        ran.err
            .contains("257 pages are more than 256, the most: give --pages"),
        "{}",
        ran.err
    );
    tool.write("dump", &[0xff; 65_540]);
    assert_eq!(shaped("64k").status, Some(0));
    let ran = shaped("65540");
    assert_eq!(ran.status, Some(16));
    assert!(
        ran.err
            .contains("a page of 65540 bytes is larger than 65536, the most"),
        "{}",
        ran.err
    );
}

#[test]
fn a_slip_that_is_too_big_is_measured() {
    let tool = Tool(folder("too-big"));
    tool.new_image("32", "1");
    let ran = tool.ran(&["push", "a", "seventeen letters"]);
    assert_eq!(ran.status, Some(2));
    let says = "slips: ItemTooBig: the slip has 17 bytes, and a page of 32 with words of 4 takes 16 at most\n";
    assert_eq!(ran.err, says);
    tool.push(&["five!"]);
    let ran = tool.ran(&["pop", "a", "--buffer", "7"]);
    assert_eq!(ran.status, Some(4));
    assert!(ran.err.contains("give --buffer 8"), "{}", ran.err);
}

#[test]
fn a_full_queue_says_what_makes_room() {
    let tool = Tool(folder("full"));
    tool.new_image("20", "1");
    let cut = ["push", "a", "slip", "--limit", "3"];
    assert_eq!(tool.status(&cut), 7);
    let ran = tool.ran(&["push", "a", "slip"]);
    assert_eq!(ran.status, Some(3));
    assert!(
        ran.err.contains("no slip waits, and `slips erase`"),
        "{}",
        ran.err
    );
    assert_eq!(tool.status(&["erase", "a"]), 0);
    tool.push(&["slip"]);
    let ran = tool.ran(&["push", "a", "slip"]);
    assert_eq!(ran.status, Some(3));
    assert!(
        ran.err.contains("pop slips, or give --overwrite"),
        "{}",
        ran.err
    );
}

#[test]
fn a_pop_that_nobody_reads_keeps_the_slip() {
    let tool = Tool(folder("unread"));
    tool.two_a_page("2", 2);
    let before = tool.image("a");
    let ran = tool.shell("exec \"$SLIPS\" pop a >&-");
    assert_eq!(ran.status, Some(74), "{}", ran.err);
    assert!(ran.err.contains("it stays in the queue"), "{}", ran.err);
    assert_eq!(tool.image("a"), before);
    assert_eq!(tool.shell("\"$SLIPS\" pop a >/dev/full").status, Some(74));
    assert_eq!(tool.image("a"), before);
    let mut pop = tool.command(&["pop", "a"]);
    let ran = Ran::from(to_nobody(&mut pop));
    assert_eq!(ran.status, Some(74));
    assert!(ran.err.contains("it stays in the queue"), "{}", ran.err);
    assert_eq!(tool.image("a"), before);
    assert_eq!(tool.status(&["pop", "a"]), 0);
}

/// Runs a command whose standard output is a pipe that nobody reads.
fn to_nobody(command: &mut std::process::Command) -> std::process::Output {
    let (reader, writer) = std::io::pipe().unwrap();
    drop(reader);
    command.stdout(writer).stderr(Stdio::piped());
    command.output().unwrap()
}

#[test]
fn a_list_that_nobody_reads_ends_quietly() {
    let tool = Tool(folder("quiet"));
    tool.two_a_page("4", 6);
    let ran = Ran::from(to_nobody(&mut tool.command(&["list", "a"])));
    assert_eq!((ran.status, ran.err.as_str()), (Some(74), ""));
    let ran = tool.shell("\"$SLIPS\" list a | head -n 1");
    assert_eq!((ran.out.lines().count(), ran.err.as_str()), (1, ""));
}

#[test]
fn version_and_help() {
    let tool = Tool(folder("help"));
    let version = format!("slips {}\n", env!("CARGO_PKG_VERSION"));
    assert_eq!(tool.run(&["--version"]), (0, version));
    let (status, help) = tool.run(&["help"]);
    assert_eq!(status, 0);
    assert!(help.lines().all(|line| line.len() <= 80), "{help}");
    for command in [
        "new", "push", "pop", "peek", "list", "map", "space", "fit", "guess", "erase", "torture",
    ] {
        let (status, own) = tool.run(&[command, "--help"]);
        assert_eq!(status, 0);
        let name = format!("  {command}");
        let part: Vec<&str> = own.lines().filter(|line| line.starts_with("  ")).collect();
        assert!(part[0].starts_with(&name), "{own}");
        assert!(part.iter().all(|line| help.contains(*line)), "{own}");
        assert_eq!(tool.run(&["help", command]), (0, own));
    }
    assert_eq!(tool.status(&["help", "nothing"]), 64);
}

#[test]
fn numbers_as_they_are_written() {
    let tool = Tool(folder("numbers"));
    let new = [
        "new", "a", "--page", "4k", "--word", "0X10", "--pages", "0x2",
    ];
    let says = "a: 2 pages of 4096 bytes, words of 16, from 0; erased\n";
    assert_eq!(tool.run(&new), (0, says.into()));
    assert_eq!(tool.image("a").len(), 8192);
}

#[test]
fn one_is_no_plural() {
    let tool = Tool(folder("plural"));
    tool.new_image("64", "1");
    tool.push(&["x", "xy"]);
    let list = "   1     1 byte   \"x\"\n   2     2 bytes  \"xy\"\n";
    assert_eq!(tool.run(&["list", "a"]), (0, list.into()));
    let map = tool.run(&["map", "a", "--items"]).1;
    assert!(map.contains("    at 4: 1 byte, waits   \"x\"\n"), "{map}");
    let says = tool.run(&["torture", "--calls", "1"]).1;
    assert!(
        says.starts_with("torture, seed 1: 1 call in 1 history, "),
        "{says}"
    );
}

#[test]
fn a_map_has_80_columns() {
    let tool = Tool(folder("columns"));
    let start = ["--start", "1048576", "--page", "4096", "--word", "4"];
    let new = [&["new", "a", "--pages", "2"][..], &start].concat();
    assert_eq!(tool.status(&new), 0);
    let slip = "a long slip ".repeat(20);
    tool.push(&vec![slip.as_str(); 20]);
    let mut image = tool.image("a");
    image[1_048_576..1_048_580].fill(0xff);
    tool.write("a", &image);
    let map = tool.run(&["map", "a", "--items"]).1;
    assert!(map.lines().all(|line| line.chars().count() <= 80), "{map}");
    assert!(map.lines().any(|line| line.ends_with("..")), "{map}");
}

#[test]
fn colours_are_for_terminals_that_want_them() {
    let tool = Tool(folder("colours"));
    tool.new_image("64", "1");
    tool.push(&["x"]);
    let cases = [
        (("TERM", "xterm"), ("NO_COLOR", ""), true),
        (("TERM", "xterm"), ("NO_COLOR", "1"), false),
        (("TERM", "dumb"), ("NO_COLOR", ""), false),
    ];
    for (term, no_color, is_coloured) in cases {
        let Some(mut terminal) = Terminal::new(80) else {
            eprintln!("left out: there are no terminals here");
            return;
        };
        let mut map = tool.command(&["map", "a"]);
        let map = map.env(term.0, term.1).env(no_color.0, no_color.1);
        let text = terminal.output(map, "no header");
        assert_eq!(text.contains('\x1b'), is_coloured, "{term:?} {no_color:?}");
    }
}
