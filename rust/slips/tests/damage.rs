//! A damaged image: list, map and push tell the same story, and a refusal says what to do.
mod common;

use common::{Tool, folder};

/// Four pages with two slips on each of the first three. The start mark of page 1 is gone, so a repair would erase it, and page 2 is
/// beyond the hole.
fn damaged(name: &str) -> Tool {
    let tool = Tool(folder(name));
    tool.two_a_page("4", 6);
    let mut image = tool.image("a");
    image[64..68].fill(0xff);
    tool.write("a", &image);
    tool
}

#[test]
fn list_says_what_it_passes_by() {
    let tool = damaged("passed");
    let ran = tool.ran(&["list", "a"]);
    assert_eq!(ran.status, Some(0));
    assert_eq!(ran.out.lines().count(), 2);
    let says: Vec<&str> = ran.err.lines().collect();
    assert!(
        says[0].starts_with("slips: page 1 is corrupted"),
        "{}",
        ran.err
    );
    assert!(
        says[0].contains("2 whole slips: a repair erases it"),
        "{}",
        ran.err
    );
    assert!(
        says[1].starts_with("slips: page 2 is beyond a hole"),
        "{}",
        ran.err
    );
    assert_eq!(says.len(), 2);
}

#[test]
fn list_names_torn_slips() {
    let tool = Tool(folder("torn"));
    tool.two_a_page("4", 2);
    assert_eq!(
        tool.status(&["push", "a", "cut in its payload", "--limit", "6"]),
        7
    );
    let ran = tool.ran(&["list", "a"]);
    assert_eq!(ran.out.lines().count(), 2);
    assert_eq!(ran.err, "slips: passed by: 1 torn slip on page 1\n");
}

#[test]
fn map_marks_the_pages_and_what_is_on_the_list() {
    let tool = damaged("marked");
    let (status, text) = tool.run(&["map", "a"]);
    assert_eq!(status, 0);
    let has = |line: &str| assert!(text.lines().any(|found| found == line), "{line}\n{text}");
    has("page 0 at 0, closed, oldest: 2 waiting, 0 popped, 0 torn, 0 bytes free");
    has("page 1 at 64, corrupted:");
    has("    2 waiting (2 not on the list), 0 popped, 0 torn, 0 bytes free");
    has("page 2 at 128, partial, current:");
    has("  |WWwwwwwWWwwwww|");
    has("  :NNnnnnnNNnnnnn|");
    has("  |NNnnnnnNNnnnnn:");
    has("all pages: 6 waiting, 2 of them on the list; 0 popped, 0 torn");
}

#[test]
fn list_raw_shows_every_page_whatever_its_marks() {
    let tool = damaged("raw");
    let (status, text) = tool.run(&["list", "a", "--raw"]);
    assert_eq!(status, 0);
    let lines: Vec<&str> = text.lines().collect();
    assert_eq!(lines.len(), 6);
    assert_eq!(
        lines[2],
        "page  1 at     68    18 bytes  waits   \"slip number  3, so\""
    );
}

#[test]
fn a_repair_says_what_it_erases() {
    let tool = damaged("repair");
    let ran = tool.ran(&["push", "a", "x"]);
    assert_eq!(ran.status, Some(0));
    let says = "slips: page 1 was corrupted: a repair has erased it, with 2 whole slips\n";
    assert_eq!(ran.err, says);
    assert_eq!(tool.image("a")[64..128], [0xff; 64]);
}

#[test]
fn a_mark_that_an_erase_left_in_part_is_repaired() {
    let tool = damaged("half-mark");
    let mut image = tool.image("a");
    image[64] = 0xfe;
    tool.write("a", &image);
    assert_eq!(tool.status(&["push", "a", "x"]), 0);
    assert_eq!(tool.image("a")[64..128], [0xff; 64]);
}

#[test]
fn an_open_page_with_slips_is_named() {
    let tool = Tool(folder("open"));
    tool.two_a_page("4", 6);
    let mut image = tool.image("a");
    image[128..132].fill(0xff);
    tool.write("a", &image);
    let ran = tool.ran(&["list", "a"]);
    assert_eq!(ran.out.lines().count(), 4);
    assert!(ran.err.starts_with("slips: page 2 is open"), "{}", ran.err);
    let map = tool.run(&["map", "a"]).1;
    assert!(
        map.contains("all pages: 6 waiting, 4 of them on the list"),
        "{map}"
    );
}

#[test]
fn corrupted_names_the_page_and_what_to_do() {
    let tool = Tool(folder("corrupted"));
    tool.two_a_page("2", 4);
    let mut image = tool.image("a");
    image[124..].fill(0);
    tool.write("a", &image);
    let help = "save what `slips list --raw a` shows, then `slips erase a`";
    for words in [
        &["list", "a"][..],
        &["pop", "a"],
        &["push", "a", "x"],
        &["space", "a", "--json"],
    ] {
        let ran = tool.ran(words);
        if words[0] == "space" {
            assert_eq!(ran.status, Some(0), "{words:?}");
            continue;
        }
        assert_eq!(ran.status, Some(5), "{words:?}");
        let says = format!("Corrupted: pages 0 to 1 are all closed, so none is current: {help}");
        assert!(ran.err.contains(&says), "{words:?} {}", ran.err);
    }
    assert_eq!(tool.run(&["list", "a", "--raw"]).1.lines().count(), 4);
    // two pages that are begun: the push comes to the second one
    image[60..64].fill(0xff);
    image[124..].fill(0xff);
    tool.write("a", &image);
    let ran = tool.ran(&["push", "a", "x"]);
    assert_eq!(ran.status, Some(5));
    let says = format!("Corrupted: page 0 is current, and page 1 behind it is begun too: {help}");
    assert!(ran.err.contains(&says), "{}", ran.err);
}

#[test]
fn json_for_list_map_and_space() {
    let tool = Tool(folder("json"));
    tool.new_image("64", "2");
    tool.push(&["a \"b\"\n"]);
    assert_eq!(tool.status(&["push", "a", "--hex", "ff"]), 0);
    assert_eq!(tool.status(&["pop", "a"]), 0);
    let waits = "{\"page\": 0, \"address\": 20, \"length\": 1, \"state\": \"waits\", \"on_list\": true, \"text\": null, \"hex\": \"ff\"}";
    let popped = "{\"page\": 0, \"address\": 4, \"length\": 6, \"state\": \"popped\", \"on_list\": false, \"text\": \"a \\\"b\\\"\\u000a\", \"hex\": \"61202262220a\"}";
    let list = format!("{{\"file\": \"a\", \"slips\": [\n  {waits}], \"notes\": []}}\n");
    assert_eq!(tool.run(&["list", "a", "--json"]), (0, list));
    let raw =
        format!("{{\"file\": \"a\", \"slips\": [\n  {popped},\n  {waits}], \"notes\": []}}\n");
    assert_eq!(tool.run(&["list", "a", "--json", "--raw"]), (0, raw));
    let pages = [
        format!("{{\"page\": 0, \"address\": 0, \"state\": \"partial\", \"is_oldest\": true, \"is_current\": true, \"free\": 28, \"unreadable\": 0, \"items\": [{popped}, {waits}]}}"),
        "{\"page\": 1, \"address\": 64, \"state\": \"open\", \"is_oldest\": false, \"is_current\": false, \"free\": 56, \"unreadable\": 0, \"items\": []}".into(),
    ];
    let map = format!(
        "{{\"file\": \"a\", \"start\": 0, \"end\": 128, \"page_size\": 64, \"word_size\": 4, \"pages\": [\n  {}]}}\n",
        pages.join(",\n  ")
    );
    assert_eq!(tool.run(&["map", "a", "--json"]), (0, map));
    let space = "{\"file\": \"a\", \"space_left\": 84}\n";
    assert_eq!(tool.run(&["space", "a", "--json"]), (0, space.into()));
}
