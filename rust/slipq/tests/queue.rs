//! Document 01's "Slips on both sides of the line", asked through the wrapper.
mod common;

use common::list;
use slipq::{Error, ItemState, PageState, Queue, Shape, ShapeError};

const PAGE: Shape = Shape {
    start: 0,
    end: 32,
    page: 32,
    word: 4,
};

#[test]
fn the_page_after_an_empty_slip_and_after_its_pop() {
    let mut image = [0xff; 32];
    let mut queue = Queue::new(&mut image, PAGE).unwrap();
    queue.push(b"", false).unwrap();
    assert_eq!(
        queue.image()[..12],
        [0, 0, 0, 0, 0x11, 0x11, 0x11, 0x11, 0x00, 0x00, 0x03, 0xe2]
    );
    assert_eq!(queue.image()[12..], [0xff; 20]);
    assert_eq!(queue.pop(&mut []), Ok(Some(&mut [][..])));
    assert_eq!(queue.image()[4..8], [0; 4]);
    assert_eq!(queue.pop(&mut []), Ok(None));
}

#[test]
fn a_push_of_three_stores_cut_after_two() {
    let mut image = [0xff; 32];
    let mut queue = Queue::new(&mut image, PAGE).unwrap();
    assert_eq!(queue.push_limited(b"", false, 2), Err(Error::Cut));
    let mut items = queue.items(0);
    assert_eq!(items.next(), None);
    assert_eq!(items.address(), 8);
    assert_eq!(list(&image, PAGE), Vec::<Vec<u8>>::new());
    let mut image = [0xff; 32];
    let mut queue = Queue::new(&mut image, PAGE).unwrap();
    assert_eq!(queue.push_limited(b"", false, 3), Ok(()));
}

#[test]
fn too_big_full_and_room_after_pops() {
    let mut image = [0xff; 32];
    let mut queue = Queue::new(&mut image, PAGE).unwrap();
    assert_eq!(queue.push(&[0; 17], false), Err(Error::ItemTooBig));
    for _ in 0..3 {
        assert_eq!(queue.push(b"", false), Ok(()));
    }
    assert_eq!(queue.push(b"", false), Err(Error::FullStorage));
    assert!(queue.pop(&mut []).unwrap().is_some());
    assert_eq!(queue.push(b"", false), Err(Error::FullStorage));
    assert!(queue.pop(&mut []).unwrap().is_some());
    assert!(queue.pop(&mut []).unwrap().is_some());
    assert_eq!(queue.push_limited(b"", false, 3), Err(Error::Cut));
    assert_eq!(queue.push(b"", false), Ok(()));
}

#[test]
fn counts() {
    let mut image = [0xff; 32];
    let mut queue = Queue::new(&mut image, PAGE).unwrap();
    assert_eq!(queue.find_max_fit(), Ok(Some(24)));
    assert_eq!(queue.find_max_fit_limited(0), Ok(Some(24)));
    assert_eq!(queue.space_left(), Ok(24));
    queue.push(b"", false).unwrap();
    assert_eq!(queue.space_left_limited(0), Ok(16));
    assert_eq!(queue.find_max_fit(), Err(Error::Corrupted));
}

#[test]
fn no_fit_is_none() {
    let shape = Shape::of(2, 20, 4);
    let mut image = [0xff; 40];
    let mut queue = Queue::new(&mut image, shape).unwrap();
    queue.push(b"abcd", false).unwrap();
    queue.push(b"abcd", false).unwrap();
    assert_eq!(queue.find_max_fit(), Ok(None));
}

#[test]
fn a_buffer_is_measured_by_the_rounded_length() {
    let mut image = [0xff; 32];
    let mut queue = Queue::new(&mut image, PAGE).unwrap();
    queue.push(b"Anton", false).unwrap();
    let mut buffer = [0xa5; 9];
    assert_eq!(queue.pop(&mut buffer[..7]), Err(Error::BufferTooSmall(8)));
    assert_eq!(buffer, [0xa5; 9]);
    let slip = queue.pop(&mut buffer).unwrap();
    assert_eq!(slip.as_deref(), Some(&b"Anton"[..]));
    assert_eq!(buffer, *b"Anton\0\0\0\xa5");
}

#[test]
fn pages_and_items_are_seen_as_they_are() {
    let shape = Shape {
        start: 64,
        end: 192,
        page: 64,
        word: 16,
    };
    let mut image = [0x5a; 200];
    let mut queue = Queue::new(&mut image, shape).unwrap();
    queue.erase_all().unwrap();
    queue.push(b"one", false).unwrap();
    queue.push(b"two", false).unwrap();
    assert_eq!(queue.page_state(0), PageState::Closed);
    assert_eq!(queue.page_state(1), PageState::PartialOpen);
    queue.pop(&mut [0; 64]).unwrap();
    let seen = |queue: &Queue, page| -> Vec<(u32, u32, ItemState)> {
        let items = queue.items(page);
        items
            .map(|item| (item.address, item.length, item.state))
            .collect()
    };
    assert_eq!(seen(&queue, 0), [(80, 3, ItemState::Popped)]);
    assert_eq!(seen(&queue, 1), [(144, 3, ItemState::Waits)]);
    assert_eq!(queue.push_limited(b"three", false, 3), Err(Error::Cut));
    assert_eq!(seen(&queue, 1), [(144, 3, ItemState::Waits)]);
    assert_eq!(list(queue.image(), shape), [b"two"]);
    assert_eq!(queue.image()[..64], [0x5a; 64]);
    assert_eq!(queue.image()[192..], [0x5a; 8]);
}

#[test]
#[should_panic(expected = "page 1 of a queue of 1 pages")]
fn a_page_that_is_not_there() {
    Queue::new(&mut [0xff; 32], PAGE).unwrap().page_state(1);
}

#[test]
fn shapes_are_refused_in_order() {
    let all = [
        (0, 32, 32, 0, ShapeError::BadGeometry),
        (0, 30, 30, 4, ShapeError::BadGeometry),
        (1, 32, 32, 4, ShapeError::StartRangeNotAtPageBoundary),
        (0, 33, 32, 4, ShapeError::EndRangeNotAtPageBoundary),
        (0, 0, 32, 4, ShapeError::RangeTooSmall),
        (32, 0, 32, 4, ShapeError::RangeTooSmall),
        (0, 16, 16, 4, ShapeError::PagesTooSmall),
        (0, 96, 96, 32, ShapeError::PagesTooSmall),
        (0, 256, 256, 64, ShapeError::WordSizeTooLarge),
        (0, 32, 32, 2, ShapeError::BadWord),
        (0, 65_540, 65_540, 4, ShapeError::TooLarge),
        (0, 257 * 32, 32, 4, ShapeError::TooLarge),
        (0, 64, 32, 4, ShapeError::OutsideImage),
        (0, 65_536, 65_536, 4, ShapeError::OutsideImage),
        (0, 256 * 32, 32, 4, ShapeError::OutsideImage),
    ];
    for (start, end, page, word, error) in all {
        let shape = Shape {
            start,
            end,
            page,
            word,
        };
        assert_eq!(shape.check(33), Err(error), "{shape:?}");
    }
    assert_eq!(
        Shape::of(u32::MAX, 32, 4)
            .check(32)
            .map_err(ShapeError::row),
        Err(11)
    );
}
