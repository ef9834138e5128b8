//! generate [--seed S] [--count N] [--anywhere] [--small] [--exhaustive | --standard]: requests on standard output, one a line.
//! It keeps to 01's domain of equality unless --anywhere is given; --small keeps dictionaries and messages small. --exhaustive gives every short sequence instead,
//! --standard the messages of public documents, whatever the seed.
use std::io::Write;

use driver::generate::{Generator, exhaustive, standard};
use driver::protocol::Request;

fn after(words: &[String], flag: &str) -> Option<u64> {
    words.iter().position(|word| word == flag).and_then(|place| words.get(place + 1)?.parse().ok())
}

fn main() {
    let words: Vec<String> = std::env::args().skip(1).collect();
    let has = |flag: &str| words.iter().any(|word| word == flag);
    let mut out = std::io::BufWriter::new(std::io::stdout().lock());
    let mut sink = |request: Request| writeln!(out, "{}", request.text()).is_ok();
    if has("--exhaustive") {
        return exhaustive(&mut sink);
    }
    if has("--standard") {
        return standard(&mut sink);
    }
    let mut generator = Generator::new(after(&words, "--seed").unwrap_or(1), !has("--anywhere"), has("--small"));
    generator.run(after(&words, "--count").unwrap_or(1_000), &mut sink);
}
