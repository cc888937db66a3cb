//! Stands in for the crate's buffered queue, whose source is not at hand.
