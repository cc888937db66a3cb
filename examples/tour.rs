//! A tour of the queue in Rust: push, peek, pop, and a push that a power cut stops after every number of stores.
//! examples/run builds it and compares what it prints with examples/tour.txt.
use slipq::{Error, Queue, Shape};

const SHAPE: Shape = Shape {
    start: 0,
    end: 128,
    page: 64,
    word: 4,
};

fn text(slip: &[u8]) -> String {
    format!("\"{}\"", String::from_utf8_lossy(slip))
}

/// Pops all slips of a copy, so that the queue stays as it is.
fn list(image: &[u8]) -> Result<String, Box<dyn std::error::Error>> {
    let mut copy = image.to_vec();
    let mut queue = Queue::new(&mut copy, SHAPE)?;
    let mut buffer = [0; 64];
    let mut list = String::from("waiting:");
    while let Some(slip) = queue.pop(&mut buffer)? {
        list += " ";
        list += &text(slip);
    }
    Ok(list)
}

fn row<T>(answer: &Result<T, Error>) -> u32 {
    match answer {
        Ok(_) => 0,
        Err(error) => error.row(),
    }
}

fn main() -> Result<(), Box<dyn std::error::Error>> {
    let mut image = [0xff; 128];
    let mut buffer = [0; 64];
    let mut queue = Queue::new(&mut image, SHAPE)?;

    for slip in ["Moser, Franz", "Moser, Paul", "Auer, Maria"] {
        let answer = queue.push(slip.as_bytes(), false);
        println!("push {slip:?}: row {}", row(&answer));
    }

    let slip = queue.peek(&mut buffer)?.unwrap_or_default();
    println!("peek: row 0, {}", text(slip));
    let slip = queue.pop(&mut buffer)?.unwrap_or_default();
    println!("pop: row 0, {}", text(slip));
    println!("{}", list(queue.image())?);

    if let Err(Error::BufferTooSmall(needed)) = queue.peek(&mut buffer[..8]) {
        println!("peek with a buffer of 8: row 4, {needed} bytes needed");
    }

    // the same push, each time with one store more
    for limit in 0.. {
        let mut copy = queue.image().to_vec();
        let mut cut = Queue::new(&mut copy, SHAPE)?;
        let answer = cut.push_limited(b"Moser, Josef", false, limit);
        print!("push \"Moser, Josef\", limit {limit}: ");
        println!("row {}, {}", row(&answer), list(&copy)?);
        if answer != Err(Error::Cut) {
            break;
        }
    }
    Ok(())
}
