//! 01 read on its own: what each request must be answered, limits and refusals included, and whether it lies in the domain of equality.
//! It shares no code with the Rust and none with our side.
mod build;
mod dictionary;
mod framer;
mod message;

use crate::protocol::{Answer, KEPT, Request};
use dictionary::Dictionary;

/// What 01 says to a request, and why it lies outside of the domain of equality, where it does.
pub struct Ruling {
    pub answer: Answer,
    pub outside: Option<&'static str>,
}

pub struct Paper {
    kept: Vec<Result<Dictionary, (u32, u32)>>,
}

impl Default for Paper {
    fn default() -> Self {
        Self { kept: (0..KEPT).map(|_| Err((32, 0))).collect() }
    }
}

impl Paper {
    pub fn rule(&mut self, request: &Request) -> Ruling {
        match request {
            Request::Dictionary(number, bytes) => {
                self.kept[*number] = Dictionary::check(bytes);
                let (number, value) = self.kept[*number].as_ref().err().copied().unwrap_or((0, 0));
                let outside = (number > 0).then_some("a refused dictionary");
                Ruling { answer: Answer::plain(format!("{number} {value}"), number), outside }
            }
            Request::Build(reading) => {
                let built = build::build(&self.kept[reading.dictionary], reading);
                Ruling { answer: Answer::plain(built.line(), built.number), outside: built.outside() }
            }
            Request::Again(reading, second) => {
                let mut built = build::build(&self.kept[reading.dictionary], reading);
                if built.number > 0 {
                    return Ruling { answer: Answer::plain(built.line(), built.number), outside: built.outside() };
                }
                let (line, number) = message::encode(&mut built.parts, *second);
                let outside = built.outside().or((number >= 20).then_some("a refused encoding"));
                Ruling { answer: Answer::plain(line, number), outside }
            }
            Request::Calls(steps) => message::calls(steps),
            Request::Frames(chunks) => framer::frames(chunks),
        }
    }
}
