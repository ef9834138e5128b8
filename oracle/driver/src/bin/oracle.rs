//! oracle [--orders N] [--paper]: answers requests on standard input, one a line, by the Rust as it was given; with --paper by 01 as the driver reads it.
use std::io::{BufRead, Write};

use driver::given::Given;
use driver::paper::Paper;
use driver::protocol::Request;

fn main() {
    let words: Vec<String> = std::env::args().skip(1).collect();
    let orders = words.iter().position(|word| word == "--orders").and_then(|place| words.get(place + 1)?.parse().ok());
    let by_paper = words.iter().any(|word| word == "--paper");
    driver::on_large_stack(move || answer_all(orders, by_paper));
}

fn answer_all(orders: Option<usize>, by_paper: bool) {
    let (mut given, mut paper) = (Given::default(), Paper::default());
    given.orders = orders.unwrap_or(given.orders);
    let (mut input, mut out) = (std::io::BufReader::new(std::io::stdin().lock()), std::io::BufWriter::new(std::io::stdout().lock()));
    let mut line = String::new();
    while input.read_line(&mut line).is_ok_and(|length| length > 0) {
        let answer = match Request::parse(line.trim_end_matches('\n')) {
            None => "unreadable".to_string(),
            Some(request) if by_paper => paper.rule(&request).answer.text(),
            Some(request) => given.answer(&request).text(),
        };
        line.clear();
        // Nothing is held back from one who waits for it.
        let written = writeln!(out, "{answer}").and_then(|()| if input.buffer().is_empty() { out.flush() } else { Ok(()) });
        if written.is_err() {
            break;
        }
    }
}
