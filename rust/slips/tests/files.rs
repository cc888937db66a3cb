//! Which files are replaced, and what stays of them.
mod common;

use common::{Tool, folder};
use std::fs::{self, Permissions};
use std::os::unix::fs::{FileTypeExt, MetadataExt, PermissionsExt, chown, symlink};
use std::process::Command;

/// An image in one folder, and a link to it in another.
fn linked(name: &str) -> Tool {
    let tool = Tool(folder(name));
    fs::create_dir(tool.0.join("real")).unwrap();
    fs::create_dir(tool.0.join("links")).unwrap();
    let shape = ["--page", "1024", "--word", "4", "--pages", "4"];
    assert_eq!(tool.status(&[&["new", "real/a"], &shape[..]].concat()), 0);
    symlink("../real/a", tool.0.join("links/a")).unwrap();
    tool
}

#[test]
fn the_shape_of_a_link_stands_beside_the_real_file() {
    let tool = linked("linked-shape");
    assert_eq!(tool.status(&["push", "links/a", "slip"]), 0);
    assert_eq!(tool.run(&["peek", "links/a"]), (0, "\"slip\"\n".into()));
    assert!(tool.0.join("links/a").is_symlink());
    let ran = tool.ran(&["push", "links/a", "slip", "--word", "8"]);
    assert_eq!(ran.status, Some(64));
    assert!(ran.err.contains("real/a.shape"), "{}", ran.err);
}

#[test]
fn pushes_through_a_link_lose_nothing() {
    let tool = linked("link");
    // a shape file beside the link has no say, and does no harm
    fs::copy(tool.0.join("real/a.shape"), tool.0.join("links/a.shape")).unwrap();
    let pushes: Vec<_> = (0..60)
        .map(|number: usize| {
            let path = ["real/a", "links/a"][number % 2];
            let mut push = tool.command(&["push", path, &number.to_string()]);
            push.spawn().unwrap()
        })
        .collect();
    for mut push in pushes {
        assert!(push.wait().unwrap().success());
    }
    assert_eq!(tool.run(&["list", "real/a"]).1.lines().count(), 60);
    assert!(tool.0.join("links/a").is_symlink());
}

#[test]
fn a_read_only_file_stays() {
    let tool = Tool(folder("read-only"));
    tool.two_a_page("2", 1);
    let path = tool.0.join("a");
    fs::set_permissions(&path, Permissions::from_mode(0o444)).unwrap();
    let before = tool.image("a");
    for words in [
        &["push", "a", "x"][..],
        &["pop", "a"],
        &["erase", "a"],
        &["push", "a", "x", "--force"],
    ] {
        let ran = tool.ran(words);
        assert_eq!(ran.status, Some(74), "{words:?}");
        assert_eq!(ran.out, "");
        assert!(ran.err.contains("read-only"), "{}", ran.err);
    }
    assert_eq!(tool.image("a"), before);
    assert_eq!(tool.status(&["list", "a"]), 0);
}

#[test]
fn what_is_no_regular_file_stays() {
    let tool = Tool(folder("fifo"));
    let pipe = tool.0.join("pipe");
    assert!(
        Command::new("mkfifo")
            .arg(&pipe)
            .status()
            .unwrap()
            .success()
    );
    tool.write("pipe.shape", b"page 64\nword 4\npages 2\n");
    // a tool that reads it has to get its image, or the test would wait for ever
    let writer = pipe.clone();
    std::thread::spawn(move || fs::write(writer, [0xff; 128]));
    let ran = tool.ran(&["push", "pipe", "x"]);
    assert_eq!(ran.status, Some(74), "{}", ran.err);
    assert!(ran.err.contains("not a regular file"), "{}", ran.err);
    assert!(fs::metadata(&pipe).unwrap().file_type().is_fifo());
    // looking at what comes through a pipe is well
    assert_eq!(tool.status(&["space", "pipe"]), 0);
}

#[test]
fn mode_and_owner_stay() {
    let tool = Tool(folder("owner"));
    tool.new_image("64", "2");
    let path = tool.0.join("a");
    fs::set_permissions(&path, Permissions::from_mode(0o640)).unwrap();
    // only root gives files away
    let _ = chown(&path, Some(12_345), Some(12_346));
    let before = fs::metadata(&path).unwrap();
    assert_eq!(tool.status(&["push", "a", "x"]), 0);
    let after = fs::metadata(&path).unwrap();
    let seen = |found: &fs::Metadata| (found.mode(), found.uid(), found.gid());
    assert_eq!(seen(&after), seen(&before));
    assert_eq!(tool.run(&["list", "a"]).1.lines().count(), 1);
}

#[test]
fn temporary_files_of_killed_runs_are_removed() {
    let tool = Tool(folder("stale"));
    tool.new_image("64", "2");
    let others = [".a.x.tmp", ".ab.1.tmp", "a.1.tmp", ".a.1.tmp.txt"];
    for name in others {
        tool.write(name, b"");
    }
    tool.write(".a.1.tmp", b"half an image");
    // exec keeps the process number, so the tool meets its own name
    let ran = tool.shell("touch .a.$$.tmp; exec \"$SLIPS\" push a x");
    assert_eq!(ran.status, Some(0), "{}", ran.err);
    let mut names: Vec<_> = fs::read_dir(&tool.0)
        .unwrap()
        .map(|entry| entry.unwrap().file_name().into_string().unwrap())
        .collect();
    names.sort();
    let mut expected = [&others[..], &["a", "a.shape"]].concat();
    expected.sort_unstable();
    assert_eq!(names, expected);
}
