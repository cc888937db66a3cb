//! A wrong shape costs no slips: contradictions, what cannot be read, and guesses.
mod common;

use common::{Tool, folder};
use slipq::{Queue, Shape};

const WRONG: [[&str; 2]; 4] = [
    ["--word", "8"],
    ["--page", "128"],
    ["--pages", "4"],
    ["--start", "64"],
];

#[test]
fn options_that_contradict_the_shape_file_store_nothing() {
    let tool = Tool(folder("contradictions"));
    tool.two_a_page("8", 5);
    let before = tool.image("a");
    for command in [&["push", "a", "x"][..], &["pop", "a"], &["erase", "a"]] {
        for wrong in WRONG {
            let ran = tool.ran(&[command, &wrong].concat());
            assert_eq!(ran.status, Some(64), "{command:?} {wrong:?}");
            assert!(
                ran.err.contains(wrong[0]) && ran.err.contains("a.shape"),
                "{}",
                ran.err
            );
            assert!(ran.err.contains("--force"), "{}", ran.err);
            assert_eq!(tool.image("a"), before, "{command:?} {wrong:?}");
        }
    }
    // looking is free, and so is what the shape file says too
    assert_eq!(tool.status(&["list", "a", "--word", "8"]), 0);
    let same = [
        "push", "a", "x", "--word", "4", "--page", "64", "--start", "0",
    ];
    assert_eq!(tool.status(&same), 0);
    assert_eq!(tool.status(&["pop", "a", "--pages", "8"]), 0);
    assert_eq!(tool.status(&["erase", "a", "--pages", "4", "--force"]), 0);
    assert_eq!(tool.image("a")[..256], [0xff; 256]);
}

#[test]
fn a_page_given_as_it_is_noted_keeps_the_noted_number_of_pages() {
    let tool = Tool(folder("same-page"));
    tool.two_a_page("2", 1);
    let longer = [tool.image("a"), vec![0x55; 64]].concat();
    tool.write("a", &longer);
    assert_eq!(
        tool.run(&["space", "a", "--page", "64"]),
        tool.run(&["space", "a"])
    );
}

#[test]
fn a_pop_that_answers_empty_keeps_what_it_cannot_read() {
    let tool = Tool(folder("unreadable"));
    tool.two_a_page("8", 5);
    std::fs::remove_file(tool.0.join("a.shape")).unwrap();
    let before = tool.image("a");
    let pop = ["pop", "a", "--page", "64", "--word", "8"];
    let ran = tool.ran(&pop);
    assert_eq!(ran.status, Some(1));
    assert!(
        ran.err.contains("are neither FF nor readable"),
        "{}",
        ran.err
    );
    assert!(
        ran.err.contains("the file is left as it was"),
        "{}",
        ran.err
    );
    assert_eq!(tool.image("a"), before);
    assert_eq!(tool.status(&[&pop[..], &["--force"]].concat()), 1);
    assert_ne!(tool.image("a"), before);
}

#[test]
fn no_push_erases_pages_with_marks_of_another_shape() {
    let tool = Tool(folder("odd-marks"));
    tool.two_a_page("4", 7);
    std::fs::remove_file(tool.0.join("a.shape")).unwrap();
    let before = tool.image("a");
    let push = [
        "push",
        "a",
        "more than is left there",
        "--page",
        "64",
        "--word",
        "8",
    ];
    let ran = tool.ran(&push);
    assert_eq!(ran.status, Some(65), "{}", ran.err);
    assert!(ran.err.contains("marks of another shape"), "{}", ran.err);
    assert_eq!(tool.image("a"), before);
    assert_eq!(tool.status(&[&push[..], &["--force"]].concat()), 0);
    assert_ne!(tool.image("a"), before);
}

#[test]
fn each_command_names_what_it_cannot_read() {
    let tool = Tool(folder("named"));
    tool.two_a_page("4", 3);
    let ran = tool.ran(&["list", "a"]);
    assert_eq!(ran.err, "");
    let mut image = tool.image("a");
    image[64 + 52] = 0x55;
    tool.write("a", &image);
    for words in [
        &["list", "a"][..],
        &["list", "a", "--raw"],
        &["peek", "a"],
        &["map", "a"],
        &["space", "a"],
        &["fit", "a"],
        &["push", "a", "x"],
        &["pop", "a"],
    ] {
        let ran = tool.ran(words);
        assert_eq!(ran.status, Some(0), "{words:?} {}", ran.err);
        let says = "4 bytes on page 1 are neither FF nor readable";
        assert!(ran.err.contains(says), "{words:?} {}", ran.err);
    }
}

#[test]
fn guess_finds_the_shape_that_reads_best() {
    let tool = Tool(folder("guess"));
    for (page, word) in [
        ("64", "4"),
        ("64", "8"),
        ("128", "16"),
        ("256", "32"),
        ("80", "4"),
    ] {
        let _ = std::fs::remove_file(tool.0.join("a"));
        let new = ["new", "a", "--page", page, "--word", word, "--pages", "6"];
        assert_eq!(tool.status(&new), 0);
        let size: usize = page.parse().unwrap();
        let slip = "s".repeat(size / 5);
        let count = 5;
        tool.push(&vec![slip.as_str(); count]);
        assert_eq!(tool.status(&["pop", "a"]), 0);
        let (status, text) = tool.run(&["guess", "a"]);
        assert_eq!(status, 0);
        let lines: Vec<&str> = text.lines().collect();
        let first = format!("--page {page} --word {word} --pages 6");
        assert!(lines[0].starts_with(&first), "{text}");
        let says = "5 slips: 4 waiting, 1 popped; 0 torn, 0 bytes not readable";
        assert_eq!(lines[1].trim(), says, "{text}");
    }
}

#[test]
fn guess_finds_the_queue_in_a_dump_of_a_whole_chip() {
    let tool = Tool(folder("chip"));
    tool.two_a_page("4", 7);
    let firmware: Vec<u8> = (0_u32..64 * 100)
        .map(|n| (n.wrapping_mul(n) >> 3) as u8)
        .collect();
    let dump = [&firmware[..], &tool.image("a"), &firmware].concat();
    tool.write("dump", &dump);
    let (status, text) = tool.run(&["guess", "dump"]);
    assert_eq!(status, 0);
    let shape = "--start 6400 --page 64 --word 4 --pages 4";
    assert!(text.starts_with(shape), "{text}");
    let words: Vec<&str> = ["list", "dump"]
        .into_iter()
        .chain(shape.split(' '))
        .collect();
    assert_eq!(tool.run(&words), tool.run(&["list", "a"]));
    tool.write("empty", &[0xff; 256]);
    let ran = tool.ran(&["guess", "empty"]);
    assert_eq!((ran.status, ran.out.as_str()), (Some(65), ""));
}

/// An image that is full of slips of so many bytes, but for one that was popped.
fn full(shape: Shape, length: usize) -> Vec<u8> {
    let mut image = vec![0xff; shape.end as usize];
    let mut queue = Queue::new(&mut image, shape).unwrap();
    let slip = "Moser, Paul, Oberdorf 3 ".repeat(length / 24 + 1);
    while queue.push(&slip.as_bytes()[..length], false).is_ok() {}
    queue.pop(&mut vec![0; length.next_multiple_of(4)]).unwrap();
    image
}

/// Guesses at a dump of a full queue alone, and at one of a chip that has a page of firmware before it and one behind.
fn guess_full(name: &str, shape: Shape, length: usize, slips: usize) {
    let tool = Tool(folder(name));
    let image = full(shape, length);
    let (page, pages, waiting) = (shape.page, shape.pages(), slips - 1);
    let says = format!(
        "--page {page} --word 4 --pages {pages}\n    {slips} slips: {waiting} waiting, 1 popped; 0 torn, 0 bytes not readable\n"
    );
    tool.write("dump", &image);
    let found = tool.run(&["guess", "dump"]).1;
    assert!(found.starts_with(&says), "{found}");
    let firmware: Vec<u8> = (0..page).map(|n| (n.wrapping_mul(n) >> 3) as u8).collect();
    tool.write("dump", &[&firmware[..], &image, &firmware].concat());
    let found = tool.run(&["guess", "dump"]).1;
    assert!(
        found.starts_with(&format!("--start {page} {says}")),
        "{found}"
    );
}

#[test]
fn guess_finds_256_pages_of_256_bytes() {
    guess_full("guess-many", Shape::of(256, 256, 4), 50, 1024);
}

#[test]
fn guess_finds_4_pages_of_65536_bytes() {
    guess_full("guess-large", Shape::of(4, 65_536, 4), 1000, 260);
}
