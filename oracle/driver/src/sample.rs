//! The sample that is recorded: requests chosen by their marks, short ones first, so that each mark that any candidate has occurs.
mod marks;

use std::collections::BTreeMap;

use crate::generate::{Generator, exhaustive, standard};
use crate::given::Given;
use crate::paper::Paper;
use crate::protocol::{Answer, KEPT, Request};
use marks::marks_of;

/// How many requests of a mark are wanted, and how many requests there are at least.
const OF_EACH_MARK: usize = 3;
const AT_LEAST: usize = 2_600;
/// Small requests of the generator, and of every how many short sequences one, that are candidates.
const GENERATED: u64 = 60_000;
const ONE_SEQUENCE_OF: usize = 23;
/// Hash orders that are asked for a 4.
const ORDERS: usize = 64;

/// A request and, where it is built, its dictionary. All stand under the number 0.
struct Candidate {
    dictionary: Vec<u8>,
    request: Request,
}

/// Keeps each request with the dictionary that its number stands for.
struct Gathering {
    dictionaries: Vec<Vec<u8>>,
    candidates: Vec<Candidate>,
    passed: usize,
    one_of: usize,
}

impl Gathering {
    fn take(&mut self, request: Request) -> bool {
        let (number, request) = match request {
            Request::Dictionary(number, bytes) => {
                self.dictionaries[number] = bytes;
                return true;
            }
            Request::Build(mut reading) => (Some(std::mem::take(&mut reading.dictionary)), Request::Build(reading)),
            Request::Again(mut reading, second) => (Some(std::mem::take(&mut reading.dictionary)), Request::Again(reading, second)),
            other => (None, other),
        };
        self.passed += 1;
        if self.passed.is_multiple_of(self.one_of) {
            let dictionary = number.map_or_else(Vec::new, |number| self.dictionaries[number].clone());
            self.candidates.push(Candidate { dictionary, request });
        }
        true
    }
}

fn gathered(one_of: usize, from: &mut dyn FnMut(&mut dyn FnMut(Request) -> bool)) -> Vec<Candidate> {
    let mut gathering = Gathering { dictionaries: vec![vec![]; KEPT], candidates: vec![], passed: 0, one_of };
    from(&mut |request| gathering.take(request));
    gathering.candidates
}

/// Asks the Rust, each dictionary told once. The line that is recorded is 01's, which must be among the Rust's.
struct Asking {
    given: Given,
    paper: Paper,
}

impl Asking {
    fn new() -> Self {
        let mut given = Given::default();
        given.orders = ORDERS;
        Self { given, paper: Paper::default() }
    }

    fn ask(&mut self, request: &Request) -> (Answer, String) {
        let ruling = self.paper.rule(request);
        let given = self.given.answer(request);
        let text = request.text();
        assert!(ruling.outside.is_none(), "outside of the domain: {text}");
        assert!(given.agrees_with(&ruling.answer.line), "the Rust says otherwise: {text}\n{}\n{}", given.text(), ruling.answer.line);
        (given, ruling.answer.line)
    }

    fn tell(&mut self, dictionary: &[u8]) {
        if !dictionary.is_empty() {
            self.ask(&Request::Dictionary(0, dictionary.to_vec()));
        }
    }
}

/// All of the standard's messages, and of the others those that have a mark of which there are too few, then any.
fn chosen() -> Vec<Candidate> {
    let mut kept = gathered(1, &mut |sink| standard(sink));
    let mut others = gathered(1, &mut |sink| Generator::new(1, true, true).run(GENERATED, sink));
    others.extend(gathered(ONE_SEQUENCE_OF, &mut |sink| exhaustive(sink)));
    others.sort_by_cached_key(|candidate| candidate.request.text().len());
    let mut asking = Asking::new();
    let mut held: BTreeMap<String, usize> = BTreeMap::new();
    let mut rest = vec![];
    for candidate in others {
        asking.tell(&candidate.dictionary);
        let (given, line) = asking.ask(&candidate.request);
        let marks = marks_of(&candidate.request, &candidate.dictionary, &line, !given.others.is_empty());
        if marks.iter().all(|mark| held.get(mark).is_some_and(|count| *count >= OF_EACH_MARK)) {
            rest.push(candidate);
            continue;
        }
        marks.into_iter().for_each(|mark| *held.entry(mark).or_insert(0) += 1);
        kept.push(candidate);
    }
    eprintln!("{} marks, {} requests that have them", held.len(), kept.len());
    let missing = AT_LEAST.saturating_sub(kept.len());
    let step = (rest.len() / missing.max(1)).max(1);
    kept.extend(rest.into_iter().step_by(step).take(missing));
    kept
}

/// The requests in the order in which they are recorded: those over one dictionary behind it.
fn ordered() -> Vec<Request> {
    let mut candidates = chosen();
    candidates.sort_by(|a, b| a.dictionary.cmp(&b.dictionary));
    let mut requests = vec![];
    let mut told = vec![];
    for candidate in candidates {
        if candidate.dictionary != told {
            told.clone_from(&candidate.dictionary);
            requests.push(Request::Dictionary(0, told.clone()));
        }
        requests.push(candidate.request);
    }
    requests
}

/// The requests and the answers, a line each.
pub fn recorded() -> (String, String) {
    let requests = ordered();
    let answers = answers(&requests);
    (requests.iter().map(|request| request.text() + "\n").collect(), answers)
}

fn answers(requests: &[Request]) -> String {
    let mut asking = Asking::new();
    requests.iter().map(|request| asking.ask(request).1 + "\n").collect()
}

/// Whether the Rust still answers what was recorded.
pub fn still_answered(requests: &str, recorded: &str) -> bool {
    let requests: Option<Vec<Request>> = requests.lines().map(Request::parse).collect();
    requests.is_some_and(|requests| answers(&requests) == recorded)
}
