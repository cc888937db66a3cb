//! The tool as a user runs it: what it prints, its exit status, and what is left in the file.
mod common;

use common::{Tool, folder};
use std::fs;
use std::process::Command;

#[test]
fn slips_go_in_and_come_out_in_order() {
    let tool = Tool(folder("order"));
    tool.new_image("64", "2");
    assert_eq!(tool.image("a"), [0xff; 128]);
    assert_eq!(tool.status(&["push", "a", "Moser, Paul"]), 0);
    assert_eq!(tool.status(&["push", "a", "--hex", "00 FF"]), 0);
    assert_eq!(tool.status(&["push", "a", "--", "--limit"]), 0);
    fs::write(tool.0.join("slip"), "from a file").unwrap();
    assert_eq!(tool.status(&["push", "a", "--file", "slip"]), 0);
    let before = tool.image("a");
    let (status, list) = tool.run(&["list", "a"]);
    assert_eq!(status, 0);
    let shown: Vec<&str> = list.lines().map(|line| &line[18..]).collect();
    assert_eq!(
        shown,
        ["\"Moser, Paul\"", "00ff", "\"--limit\"", "\"from a file\""]
    );
    assert_eq!(tool.run(&["peek", "a"]), (0, "\"Moser, Paul\"\n".into()));
    assert_eq!(tool.status(&["map", "a", "--items"]), 0);
    assert_eq!(tool.image("a"), before);
    assert_eq!(tool.run(&["pop", "a", "--raw"]), (0, "Moser, Paul".into()));
    assert_eq!(tool.run(&["pop", "a"]), (0, "00ff\n".into()));
    assert_eq!(tool.run(&["pop", "a", "--hex"]).0, 0);
    assert_eq!(tool.run(&["pop", "a"]).0, 0);
    assert_eq!(tool.run(&["pop", "a"]), (1, String::new()));
    assert_eq!(tool.run(&["list", "a"]), (0, String::new()));
    // nothing is left behind in the folder
    let mut names: Vec<_> = fs::read_dir(&tool.0)
        .unwrap()
        .map(|entry| entry.unwrap().file_name())
        .collect();
    names.sort();
    assert_eq!(names, ["a", "a.shape", "slip"]);
}

#[test]
fn each_refusal_has_its_status() {
    let tool = Tool(folder("refusals"));
    tool.new_image("32", "1");
    let push = |slip: &str| tool.status(&["push", "a", slip]);
    assert_eq!(push("seventeen letters"), 2);
    assert_eq!(push("sixteen letters!"), 0);
    assert_eq!(push(""), 3);
    assert_eq!(tool.status(&["pop", "a", "--buffer", "15"]), 4);
    assert_eq!(tool.status(&["fit", "a"]), 5);
    assert_eq!(tool.status(&["pop", "a", "--limit", "0"]), 7);
    assert_eq!(tool.status(&["push", "a", "", "--overwrite"]), 0);
    assert_eq!(tool.status(&["pop", "a"]), 0);
    assert_eq!(tool.status(&["pop", "a"]), 1);
    let shaped = |words: &[&str]| tool.status(&[&["list", "a"], words].concat());
    assert_eq!(shaped(&["--word", "0"]), 9);
    assert_eq!(shaped(&["--start", "4"]), 10);
    assert_eq!(shaped(&["--pages", "0"]), 12);
    assert_eq!(shaped(&["--word", "8"]), 0);
    assert_eq!(shaped(&["--word", "16"]), 13);
    assert_eq!(shaped(&["--word", "2"]), 15);
    assert_eq!(shaped(&["--pages", "257"]), 16);
    assert_eq!(shaped(&["--pages", "256"]), 17);
    let wide = ["new", "b", "--page", "256", "--word", "64", "--pages", "1"];
    assert_eq!(tool.status(&wide), 14);
    assert_eq!(shaped(&["--word", "four"]), 64);
    assert_eq!(shaped(&["--wrod", "4"]), 64);
    assert_eq!(tool.status(&[]), 64);
    assert_eq!(tool.status(&["list", "none"]), 66);
    fs::write(tool.0.join("dump"), [0xff; 64]).unwrap();
    assert_eq!(tool.status(&["list", "dump"]), 65);
    assert_eq!(
        tool.status(&["list", "dump", "--page", "32", "--word", "4"]),
        0
    );
    let again = ["new", "a", "--page", "32", "--word", "4", "--pages", "1"];
    assert_eq!(tool.status(&again), 73);
    let says = tool.ran(&["list", "dump"]).err;
    assert_eq!(
        says,
        "slips: dump: the page size is not known: give --page, or write dump.shape\n"
    );
}

#[test]
fn a_cut_push_leaves_its_stores_in_the_file() {
    let tool = Tool(folder("cut"));
    tool.new_image("32", "1");
    assert_eq!(tool.status(&["push", "a", "", "--limit", "2"]), 7);
    let mut image = vec![0xff; 32];
    image[..4].fill(0);
    image[4..8].fill(0x11);
    assert_eq!(tool.image("a"), image);
    assert_eq!(tool.status(&["erase", "a"]), 0);
    assert_eq!(tool.image("a"), [0xff; 32]);
}

#[test]
fn pushes_at_the_same_time_lose_nothing() {
    let tool = Tool(folder("together"));
    tool.new_image("256", "2");
    let pushes: Vec<_> = (0..12)
        .map(|number| {
            let mut push = Command::new(env!("CARGO_BIN_EXE_slips"));
            let push = push.current_dir(&tool.0);
            push.args(["push", "a", &number.to_string()])
                .spawn()
                .unwrap()
        })
        .collect();
    for mut push in pushes {
        assert!(push.wait().unwrap().success());
    }
    assert_eq!(tool.run(&["list", "a"]).1.lines().count(), 12);
}
