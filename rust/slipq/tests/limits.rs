//! The largest pages and the most of them, and what lies just beyond.
mod common;

use common::list;
use slipq::{Error, PageState, Queue, Shape, ShapeError};

#[test]
fn the_limits_are_the_librarys_and_the_headers() {
    let (page, pages) = (Shape::LARGEST_PAGE, Shape::MOST_PAGES);
    assert_eq!((page, pages), (65_536, 256));
    let row = |pages, page| {
        Shape::of(pages, page, 4)
            .check(1 << 25)
            .map_err(ShapeError::row)
    };
    assert_eq!(row(pages, page), Ok(()));
    assert_eq!(row(1, page + 4), Err(16));
    assert_eq!(row(pages + 1, 20), Err(16));
    assert_eq!(
        ShapeError::TooLarge.to_string(),
        "the page is larger than 65536, or there are more than 256 pages"
    );
    let header = include_str!("../../../include/slipq.h");
    for line in [
        format!("#define SLIPQ_LARGEST_PAGE {page}u"),
        format!("#define SLIPQ_MOST_PAGES {pages}u"),
    ] {
        assert!(header.lines().any(|found| found == line), "{line}");
    }
}

/// Numbers are added and multiplied in 32 bits nowhere before they are known to fit.
#[test]
fn shapes_at_the_top_of_the_addresses_are_refused_by_name() {
    let all = [
        (0xffff_0000, 0xffff_0000, 65_536, ShapeError::RangeTooSmall),
        (0xfeff_0000, 0xffff_0000, 65_536, ShapeError::OutsideImage),
        (0xfefe_0000, 0xffff_0000, 65_536, ShapeError::TooLarge),
        (0, 0xffff_0000, 65_536, ShapeError::TooLarge),
        (0xffff_0000, 0, 65_536, ShapeError::RangeTooSmall),
        (0, 65_537, 65_537, ShapeError::BadGeometry),
        (0, 1 << 31, 1 << 31, ShapeError::TooLarge),
        (1 << 31, 1 << 31, 1 << 31, ShapeError::RangeTooSmall),
        (0, u32::MAX - 3, u32::MAX - 3, ShapeError::TooLarge),
        (0, u32::MAX - 3, 4, ShapeError::PagesTooSmall),
        (0, u32::MAX - 15, 20, ShapeError::TooLarge),
    ];
    let mut image = [0x5a; 64];
    for (start, end, page, error) in all {
        let shape = Shape {
            start,
            end,
            page,
            word: 4,
        };
        assert_eq!(
            Queue::new(&mut image, shape).err(),
            Some(error),
            "{shape:?}"
        );
        assert_eq!(image, [0x5a; 64]);
    }
    let top = Shape {
        start: 0xfeff_0000,
        end: 0xffff_0000,
        page: 65_536,
        word: 4,
    };
    assert_eq!(top.check(0xffff_0000), Ok(()));
    assert_eq!(top.check(0xfffe_ffff), Err(ShapeError::OutsideImage));
}

#[test]
fn the_most_pages_are_filled_and_emptied_twice_round() {
    for (page, word, on_a_page) in [(20, 4, 1), (32, 8, 1), (256, 32, 3)] {
        let shape = Shape::of(Shape::MOST_PAGES, page, word);
        let mut image = vec![0xff; shape.end as usize];
        let mut queue = Queue::new(&mut image, shape).unwrap();
        let mut buffer = vec![0; page as usize];
        let slips = || (0..Shape::MOST_PAGES * on_a_page).map(u32::to_le_bytes);
        for _ in 0..2 {
            for slip in slips() {
                assert_eq!(queue.push(&slip, false), Ok(()));
            }
            assert_eq!(queue.push(b"full", false), Err(Error::FullStorage));
            assert_eq!(queue.page_state(Shape::MOST_PAGES - 2), PageState::Closed);
            for slip in slips() {
                assert_eq!(queue.pop(&mut buffer).unwrap().as_deref(), Some(&slip[..]));
            }
            assert_eq!(queue.pop(&mut buffer), Ok(None));
        }
    }
}

#[test]
fn the_largest_page_takes_a_slip_of_65520_bytes() {
    let shape = Shape::of(1, Shape::LARGEST_PAGE, 4);
    let mut image = vec![0xff; shape.end as usize];
    let slip: Vec<u8> = (0..65_536_u32).map(|n| ((n * n) >> 7) as u8).collect();
    let mut queue = Queue::new(&mut image, shape).unwrap();
    for length in [65_521, 65_535, 65_536] {
        assert_eq!(queue.push(&slip[..length], false), Err(Error::ItemTooBig));
        assert!(queue.image().iter().all(|byte| *byte == 0xff));
    }
    assert_eq!(queue.space_left(), Ok(65_528));
    // a start mark, two words of a header, and the payload's
    let stores = 3 + 65_520 / 4;
    let mut cut = queue.image().to_vec();
    let mut cut = Queue::new(&mut cut, shape).unwrap();
    assert_eq!(
        cut.push_limited(&slip[..65_520], false, stores - 1),
        Err(Error::Cut)
    );
    assert_eq!(list(cut.image(), shape), Vec::<Vec<u8>>::new());
    assert_eq!(queue.push_limited(&slip[..65_520], false, stores), Ok(()));
    assert_eq!(queue.push(b"", false), Err(Error::FullStorage));
    assert_eq!(queue.items(0).next().map(|item| item.length), Some(65_520));
    let mut buffer = vec![0; 65_520];
    let shown = queue.pop(&mut buffer[..65_519]);
    assert_eq!(shown, Err(Error::BufferTooSmall(65_520)));
    let shown = queue.pop(&mut buffer).unwrap();
    assert_eq!(shown.as_deref(), Some(&slip[..65_520]));
    assert_eq!(queue.pop(&mut buffer), Ok(None));
}

#[test]
fn the_largest_pages_follow_one_another() {
    let shape = Shape {
        start: 65_536,
        end: 4 * 65_536,
        page: 65_536,
        word: 32,
    };
    let mut image = vec![0x5a; 4 * 65_536 + 7];
    let mut queue = Queue::new(&mut image, shape).unwrap();
    queue.erase_all().unwrap();
    let slips = [[1; 65_440], [2; 65_440], [3; 65_440]];
    for slip in &slips {
        assert_eq!(queue.push(slip, false), Ok(()));
    }
    assert_eq!(queue.push(b"", false), Err(Error::FullStorage));
    assert_eq!(list(queue.image(), shape), slips);
    // with overwriting the oldest page makes room
    assert_eq!(queue.push(b"four", true), Ok(()));
    assert_eq!(queue.page_state(0), PageState::PartialOpen);
    assert_eq!(list(queue.image(), shape)[2], b"four");
    assert_eq!(queue.image()[..65_536], [0x5a; 65_536]);
    assert_eq!(queue.image()[4 * 65_536..], [0x5a; 7]);
}
