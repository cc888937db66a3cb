// stands in for the tests of the crate's caches
