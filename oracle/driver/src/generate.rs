//! The seeded generator: dictionaries, messages read over them, messages made by calls, streams.
mod calls;
mod exhaustive;
mod messages;
mod outside;
pub(crate) mod random;
mod shape;
mod standard;
mod streams;

use crate::paper::Paper;
use crate::protocol::{KEPT, Reading, Request, VALIDATE};
pub use exhaustive::exhaustive;
pub use standard::standard;
use messages::{Draft, Wrapping};
use random::Random;
use shape::Shape;

/// Where requests go; `false` where no more are wanted.
pub type Sink<'a> = &'a mut dyn FnMut(Request) -> bool;

pub struct Generator {
    random: Random,
    /// Draws the bits of settings words that mean nothing, apart from all else: a seed's requests are otherwise the same with and without them.
    other_bits: Random,
    /// Keeps to 01's domain of equality: what lies outside is made and thrown away.
    domain: bool,
    /// Keeps to small dictionaries and to messages far from the limits, for a sample that is recorded.
    small: bool,
    paper: Paper,
    shapes: Vec<Shape>,
}

/// Requests that are made before one of the dictionaries is replaced.
const OVER_ONE_DICTIONARY: usize = 400;

/// Characters of a request in a sample that is recorded.
const LONGEST_OF_A_SAMPLE: usize = 700;

impl Generator {
    pub fn new(seed: u64, domain: bool, small: bool) -> Self {
        Self { random: Random::new(seed), other_bits: Random::new(!seed), domain, small, paper: Paper::default(), shapes: vec![] }
    }

    /// `count` requests: every dictionary first, then messages, calls and streams, and now and then another dictionary.
    pub fn run(&mut self, count: u64, sink: Sink) {
        let mut left = count;
        for number in 0..KEPT {
            let request = self.dictionary(number);
            self.offer(request, &mut left, sink);
        }
        let mut made = 0;
        while left > 0 {
            let batch = self.batch();
            made += batch.len();
            for request in batch {
                self.offer(request, &mut left, sink);
            }
            if made >= OVER_ONE_DICTIONARY {
                made = 0;
                let number = self.random.below(KEPT);
                let request = self.dictionary(number);
                self.offer(request, &mut left, sink);
            }
        }
    }

    fn offer(&mut self, mut request: Request, left: &mut u64, sink: Sink) {
        if let Request::Build(reading) | Request::Again(reading, _) = &mut request {
            reading.settings |= self.other_bits();
        }
        let outside = self.paper.rule(&request).outside;
        let is_dictionary = matches!(request, Request::Dictionary(..));
        let too_long = self.small && !is_dictionary && request.text().len() > LONGEST_OF_A_SAMPLE;
        if *left == 0 || too_long || (self.domain && outside.is_some()) {
            return;
        }
        *left = if sink(request) { *left - 1 } else { 0 };
    }

    /// In half of the words none, in the others one of them or any number. A sample has none, so that it stays as it was recorded.
    fn other_bits(&mut self) -> u32 {
        if self.small {
            return 0;
        }
        match self.other_bits.below(4) {
            0 | 1 => 0,
            2 => 2 << self.other_bits.below(31),
            _ => self.other_bits.next() as u32 & !VALIDATE,
        }
    }

    fn dictionary(&mut self, number: usize) -> Request {
        let shape = Shape::random(&mut self.random, self.small);
        let bytes = shape.bytes();
        if number < self.shapes.len() {
            self.shapes[number] = shape;
        } else {
            self.shapes.push(shape);
        }
        Request::Dictionary(number, bytes)
    }

    fn batch(&mut self) -> Vec<Request> {
        match self.random.below(100) {
            0..=9 => (0..20).map(|_| Request::Calls(calls::steps(&mut self.random, self.domain, self.small))).collect(),
            10..=14 => (0..20).map(|_| Request::Frames(streams::chunks(&mut self.random, self.domain, self.small))).collect(),
            15..=24 if !self.domain => outside::requests(&mut self.random, &self.shapes),
            _ => self.readings(),
        }
    }

    /// Messages over one of the dictionaries that are kept.
    fn readings(&mut self) -> Vec<Request> {
        let random = &mut self.random;
        let dictionary = random.below(self.shapes.len());
        let shape = &self.shapes[dictionary];
        let wrapping = Wrapping::random(random);
        let validate = random.chance(50);
        let mut draft = Draft::valid(random, shape, !validate);
        let messages = match random.below(100) {
            0..=24 => vec![draft.wrapped(&wrapping)],
            25..=71 => {
                for _ in 0..1 + random.below(3) {
                    draft.mutate(random, shape, self.domain);
                }
                vec![draft.wrapped(&wrapping)]
            }
            72..=78 => vec![messages::odd_end(random, &draft, &wrapping)],
            79..=82 => messages::damaged_at_each_byte(random, &draft, &wrapping),
            83..=85 => messages::truncated_at_each_byte(random, &draft, &wrapping),
            86..=91 if !self.small => vec![messages::near_the_limits(random, shape, &wrapping, self.domain)],
            _ => messages::damaged(random, &draft, &wrapping),
        };
        messages
            .into_iter()
            .map(|message| {
                let reading = Reading { dictionary, separator: wrapping.separator, settings: u32::from(validate), message };
                let second = if self.random.chance(70) { wrapping.separator } else { messages::separator(&mut self.random) };
                if self.random.chance(15) { Request::Again(reading, second) } else { Request::Build(reading) }
            })
            .collect()
    }
}
