//! Feeds each request to the Rust, to 01 as read here and, where there is one, to our side; counts answers and keeps the first differences.
use std::collections::BTreeMap;
use std::time::Instant;

use crate::given::Given;
use crate::ours::Ours;
use crate::paper::Paper;
use crate::protocol::{Answer, Request};

/// Other hash orders that are tried before a 4 counts as different.
const ORDERS_BEFORE_DIFFERENT: usize = 64;
const ASKED_AHEAD: usize = 512;

#[derive(Default)]
struct Seen {
    requests: u64,
    inside: u64,
    different: u64,
    ours: u64,
    /// Requests that our side has no call for.
    unanswered: u64,
    /// Of ours, those in the domain: compared with the Rust itself as well.
    ours_with_rust: u64,
}

/// How far requests in the domain reach.
#[derive(Default)]
struct Reach {
    dictionary_bytes: usize,
    long_messages: u64,
    many_records: u64,
    /// Messages answered with 0 by the depth of their deepest record.
    depths: [u64; 5],
    long_encodings: u64,
}

impl Reach {
    fn note(&mut self, request: &Request, answer: &str) {
        match request {
            Request::Dictionary(_, bytes) => self.dictionary_bytes = self.dictionary_bytes.max(bytes.len()),
            Request::Build(reading) => {
                self.long_messages += u64::from(reading.message.len() > 8_000);
                if answer.starts_with("0 ") {
                    let records = answer.split(' ').skip(4);
                    self.many_records += u64::from(records.clone().count() > 900);
                    let depth = records.filter_map(|record| record.split('.').nth(1)?.parse::<usize>().ok()).max().unwrap_or(0);
                    self.depths[depth.min(4)] += 1;
                }
            }
            _ => self.long_encodings += u64::from(answer.len() > 16_000),
        }
    }
}

pub struct Comparison {
    given: Given,
    paper: Paper,
    ours: Option<Box<dyn Ours>>,
    /// Whether a request outside of the domain counts as a difference.
    domain_only: bool,
    shown_at_most: usize,
    /// Whether the first difference ends the run.
    pub stops: bool,
    seen: Seen,
    numbers: BTreeMap<(&'static str, String), u64>,
    outside: BTreeMap<(&'static str, &'static str, bool), (u64, String)>,
    either: u64,
    reach: Reach,
    differences: Vec<String>,
    started: Instant,
}

fn kind_of(request: &Request) -> &'static str {
    match request {
        Request::Dictionary(..) => "dictionary",
        Request::Build(_) => "build",
        Request::Again(..) => "again",
        Request::Calls(_) => "calls",
        Request::Frames(_) => "frames",
    }
}

fn cut(text: &str) -> String {
    if text.len() <= 2_000 { text.to_string() } else { format!("{}.. ({} characters)", &text[..2_000], text.len()) }
}

impl Comparison {
    pub fn new(ours: Option<Box<dyn Ours>>, domain_only: bool, shown_at_most: usize) -> Self {
        Self {
            given: Given::default(),
            paper: Paper::default(),
            ours,
            domain_only,
            shown_at_most,
            stops: false,
            seen: Seen::default(),
            numbers: BTreeMap::new(),
            outside: BTreeMap::new(),
            either: 0,
            reach: Reach::default(),
            differences: vec![],
            started: Instant::now(),
        }
    }

    pub fn run(&mut self, lines: &mut dyn Iterator<Item = String>) {
        loop {
            let batch: Vec<String> = lines.take(ASKED_AHEAD).collect();
            if batch.is_empty() {
                return;
            }
            for line in &batch {
                if let Some(ours) = &mut self.ours {
                    ours.ask(line);
                }
            }
            for line in &batch {
                self.one(line);
                if self.stops && self.seen.different > 0 {
                    return;
                }
            }
        }
    }

    fn differ(&mut self, what: &str, line: &str, said: &[(&str, &str)]) {
        self.seen.different += 1;
        if self.differences.len() < self.shown_at_most {
            let mut text = format!("{what}\n  request {}", cut(line));
            for (side, answer) in said {
                text.push_str(&format!("\n  {side:7} {}", cut(answer)));
            }
            self.differences.push(text);
        }
    }

    fn one(&mut self, line: &str) {
        self.seen.requests += 1;
        let Some(request) = Request::parse(line) else {
            if let Some(ours) = &mut self.ours {
                ours.answer(&Request::Frames(vec![]));
            }
            return self.differ("unreadable request", line, &[]);
        };
        let ruling = self.paper.rule(&request);
        let paper = ruling.answer.line.clone();
        let number = ruling.answer.number.map_or("-".to_string(), |n| n.to_string());
        *self.numbers.entry((kind_of(&request), number)).or_insert(0) += 1;
        if let Request::Calls(_) = &request {
            for word in paper.split(' ') {
                let number = word.split(':').next().unwrap_or_default().to_string();
                *self.numbers.entry(("step", number)).or_insert(0) += 1;
            }
        }
        let given = self.given.answer(&request);
        match ruling.outside {
            None => {
                self.seen.inside += 1;
                self.either += u64::from(!given.others.is_empty());
                self.reach.note(&request, &paper);
                if !self.given_agrees(&request, &given, &paper) {
                    self.differ("the Rust and 01 differ", line, &[("Rust", &given.text()), ("01", &paper)]);
                }
            }
            Some(reason) => {
                let alike = given.agrees_with(&paper);
                let text = format!("{}\n    Rust {}\n    01   {}", cut(line), cut(&given.line), cut(&paper));
                let held = self.outside.entry((kind_of(&request), reason, alike)).or_insert((0, text.clone()));
                held.0 += 1;
                if text.len() < held.1.len() {
                    held.1 = text;
                }
                if self.domain_only {
                    self.differ("outside of the domain", line, &[("Rust", &given.text()), ("01", &paper)]);
                }
            }
        }
        self.one_of_ours(line, &request, &given, &paper, ruling.outside.is_none());
    }

    fn one_of_ours(&mut self, line: &str, request: &Request, given: &Answer, paper: &str, inside: bool) {
        let Some(ours) = &mut self.ours else { return };
        let own = ours.answer(request);
        for unlike in ours.unlike() {
            let what = format!("ours and ours differ: {}", unlike.what);
            self.differ(&what, line, &unlike.said.each_ref().map(|(side, said)| (*side, said.as_str())));
        }
        let Some(own) = own else {
            self.seen.unanswered += 1;
            return;
        };
        self.seen.ours += 1;
        if inside {
            self.seen.ours_with_rust += 1;
            if !self.given_agrees(request, given, &own) {
                return self.differ("our side and the Rust differ", line, &[("ours", &own), ("Rust", &given.text()), ("01", paper)]);
            }
        }
        if own != paper {
            self.differ("our side and 01 differ", line, &[("ours", &own), ("01", paper), ("Rust", &given.text())]);
        }
    }

    fn given_agrees(&mut self, request: &Request, given: &Answer, paper: &str) -> bool {
        if given.agrees_with(paper) {
            return true;
        }
        match request {
            Request::Build(reading) | Request::Again(reading, _) if given.number == Some(4) => {
                self.given.other_orders(reading, &given.line, ORDERS_BEFORE_DIFFERENT).iter().any(|other| other == paper)
            }
            _ => false,
        }
    }

    /// Prints the summary; whether nothing differed.
    pub fn report(&self) -> bool {
        println!(
            "{} requests, {} in the domain, {} differences, {:.1} s",
            self.seen.requests,
            self.seen.inside,
            self.seen.different,
            self.started.elapsed().as_secs_f64()
        );
        println!(
            "compared: the Rust and 01 as the driver reads it on {}, ours and that 01 on {}, ours and the Rust on {}; our side has no call for {}",
            self.seen.inside, self.seen.ours, self.seen.ours_with_rust, self.seen.unanswered
        );
        if let Some(held) = self.ours.as_ref().and_then(|ours| ours.held()) {
            println!("ours and ours: {held}");
        }
        for ((kind, number), count) in &self.numbers {
            println!("  {kind:10} {number:>3} {count:>9}");
        }
        let reach = &self.reach;
        println!(
            "largest dictionary {} bytes, messages over 8,000 bytes {}, answered 0 with over 900 records {}",
            reach.dictionary_bytes, reach.long_messages, reach.many_records
        );
        println!("answered 0 by depth of groups {:?}, encodings over 8,000 bytes {}", reach.depths, reach.long_encodings);
        println!("answers where the Rust says either by hash order: {}", self.either);
        for ((kind, reason, alike), (count, example)) in &self.outside {
            println!("outside: {kind}, {reason}, {}: {count}\n    {example}", if *alike { "alike" } else { "different" });
        }
        for difference in &self.differences {
            println!("{difference}");
        }
        self.seen.different == 0
    }
}
