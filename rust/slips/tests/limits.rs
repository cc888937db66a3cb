//! The largest queue that there is, 256 pages of 65,536 bytes, and a step beyond.
mod common;

use common::{Ran, Tool, folder};
use std::fs;

fn random(length: usize) -> Vec<u8> {
    let mut state = 1_u32;
    let mut byte = || {
        state = state.wrapping_mul(1_664_525).wrapping_add(1_013_904_223);
        (state >> 24) as u8
    };
    (0..length).map(|_| byte()).collect()
}

const NEW: [&str; 6] = ["new", "a", "--word", "4", "--page", "64k"];

#[test]
fn the_largest_queue_takes_the_longest_slip() {
    let tool = Tool(folder("largest"));
    let says = "a: 256 pages of 65536 bytes, words of 4, from 0; erased\n";
    let new = [&NEW[..], &["--pages", "256"]].concat();
    assert_eq!(tool.run(&new), (0, says.into()));
    assert_eq!(tool.run(&["space", "a"]), (0, "16775168\n".into()));
    let slip = random(65_521);
    tool.write("slip", &slip);
    let ran = tool.ran(&["push", "a", "--file", "slip"]);
    assert_eq!(ran.status, Some(2));
    let says = "slips: ItemTooBig: the slip has 65521 bytes, and a page of 65536 with words of 4 takes 65520 at most\n";
    assert_eq!(ran.err, says);
    assert!(tool.image("a") == vec![0xff; 1 << 24]);
    tool.write("slip", &slip[..65_520]);
    let ran = tool.shell("\"$SLIPS\" push a --file - <slip");
    assert_eq!((ran.status, ran.err.as_str()), (Some(0), ""));
    tool.push(&["on the second page"]);
    assert_eq!(tool.run(&["space", "a"]), (0, "16709612\n".into()));
    let (status, list) = tool.run(&["list", "a"]);
    assert_eq!(status, 0);
    let lines: Vec<&str> = list.lines().collect();
    assert!(
        lines[0].starts_with("   1 65520 bytes  "),
        "{}",
        &lines[0][..40]
    );
    assert_eq!(lines[1], "   2    18 bytes  \"on the second page\"");
    let popped = tool.command(&["pop", "a", "--raw"]).output().unwrap();
    assert!(popped.stdout == slip[..65_520]);
    assert_eq!(tool.status(&["pop", "a"]), 0);
    assert_eq!(tool.status(&["pop", "a"]), 1);
}

#[test]
fn beyond_the_largest_queue_nothing_is_made() {
    let tool = Tool(folder("beyond"));
    let new = |words: &[&str]| -> Ran { tool.ran(&[&["new", "a", "--word", "4"], words].concat()) };
    let ran = new(&["--page", "65536", "--pages", "257"]);
    assert_eq!(ran.status, Some(16));
    let says = "257 pages are more than 256, the most: give --pages";
    assert!(ran.err.contains(says), "{}", ran.err);
    let ran = new(&["--page", "65540", "--pages", "256"]);
    assert_eq!(ran.status, Some(16));
    let says = "a page of 65540 bytes is larger than 65536, the most";
    assert!(ran.err.contains(says), "{}", ran.err);
    assert_eq!(fs::read_dir(&tool.0).unwrap().count(), 0);
}

/// A page number of three digits and an address of eight: the last pages of the largest queue hold the list.
#[test]
fn columns_of_the_largest_queue() {
    let tool = Tool(folder("wide"));
    let new = [&NEW[..], &["--start", "16646144", "--pages", "2"]].concat();
    assert_eq!(tool.status(&new), 0);
    tool.push(&["x"]);
    // the same bytes as pages 254 and 255 of 256
    fs::remove_file(tool.0.join("a.shape")).unwrap();
    let whole = [
        "--word", "4", "--page", "64k", "--pages", "256", "--start", "0",
    ];
    let image = tool.image("a");
    assert_eq!(image.len(), 1 << 24);
    let (status, raw) = tool.run(&[&["list", "a", "--raw"], &whole[..]].concat());
    let line = "page 254 at 16646148     1 byte   waits   \"x\"\n";
    assert_eq!((status, raw.as_str()), (0, line));
    let (status, map) = tool.run(&[&["map", "a", "--items"], &whole[..]].concat());
    assert_eq!(status, 0);
    assert!(map.lines().all(|line| line.chars().count() <= 80), "{map}");
    let has = |line: &str| assert!(map.lines().any(|found| found == line), "{line}\n{map}");
    has("a: 256 pages of 65536 bytes, words of 4, addresses 0 to 16777215");
    has("one character: 1024 bytes");
    has("page 254 at 16646144, partial, oldest, current:");
    has("    1 waiting, 0 popped, 0 torn, 65516 bytes free");
    has("    at 16646148: 1 byte, waits   \"x\"");
}

/// A shape, the status that refuses it, and a part of what is said.
const AT_THE_TOP: [(&str, i32, &str); 9] = [
    (
        "--page 65536 --pages 1",
        17,
        "ends at 65536, and the image at 64",
    ),
    ("--page 65540 --pages 1", 16, "a page of 65540 bytes"),
    ("--page 65537 --pages 1", 9, "not a multiple of the word"),
    (
        "--page 0x80000000 --pages 1",
        16,
        "a page of 2147483648 bytes",
    ),
    (
        "--page 0xFFFFFFFC --pages 1",
        16,
        "a page of 4294967292 bytes",
    ),
    (
        "--page 64k --start 0xFFFF0000",
        12,
        "0 bytes from 4294901760 on",
    ),
    (
        "--page 64k --start 0xFFFF0000 --pages 1",
        65,
        "end past 32 bits",
    ),
    (
        "--page 64k --start 0xFEFF0000 --pages 256",
        17,
        "ends at 4294901760, and the image at 64",
    ),
    (
        "--page 64k --start 0xFEFE0000 --pages 257",
        16,
        "257 pages are more than 256",
    ),
];

#[test]
fn numbers_at_the_top_are_refused_by_name() {
    let tool = Tool(folder("top-numbers"));
    tool.write("dump", &[0x5a; 64]);
    for (shape, status, says) in AT_THE_TOP {
        for command in ["push dump x", "pop dump", "erase dump"] {
            let line = format!("{command} --word 4 {shape}");
            let words: Vec<&str> = line.split(' ').collect();
            let ran = tool.ran(&words);
            assert_eq!(ran.status, Some(status), "{line} {}", ran.err);
            assert!(ran.err.contains(says), "{line} {}", ran.err);
            assert_eq!(tool.image("dump"), [0x5a; 64]);
        }
    }
}
