//! What the tests share.
use slipq::{Queue, Shape};

/// The slips that wait: what pops show, made on a copy.
pub fn list(image: &[u8], shape: Shape) -> Vec<Vec<u8>> {
    let mut copy = image.to_vec();
    let mut queue = Queue::new(&mut copy, shape).unwrap();
    let mut buffer = vec![0; shape.page as usize];
    let mut slips = vec![];
    while let Some(slip) = queue.pop(&mut buffer).unwrap() {
        slips.push(slip.to_vec());
    }
    slips
}
