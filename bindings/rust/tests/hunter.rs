//! The calls of `sample_hunter`, made through this crate and held to the lines of its `stdout`.
mod shared;

use shared::{number, separated, text};
use tinkoraba::{Bars, Hunter};

/// Calls of the hunting framer, told as `sample_hunter` tells them.
struct Told {
    hunter: Hunter,
    lines: Vec<String>,
}

impl Told {
    fn section(name: &str) -> Self {
        Self { hunter: Hunter::new(), lines: vec![name.to_string()] }
    }

    fn push(&mut self, call: &str, chunk: &[u8]) {
        let answer = number(&self.hunter.push(chunk));
        self.lines.push(format!("{call} {answer} used {}", self.hunter.held()));
    }

    fn end(&mut self, call: &str) {
        let answer = number(&self.hunter.end());
        self.lines.push(format!("{call} {answer} used {}", self.hunter.held()));
    }

    fn take(&mut self, call: &str) {
        let frame = self.hunter.take().map(|frame| Bars(frame).to_string());
        let (length, held, dropped) = (frame.as_ref().map_or(0, String::len), self.hunter.held(), self.hunter.dropped());
        self.lines.push(format!("{call} 0 length {length} used {held} dropped {dropped}"));
        self.lines.extend(frame);
    }

    /// The same lines stand in the program's `stdout`, one after the other.
    fn stands(&self) {
        let expected = text("sample_hunter/stdout");
        assert!(expected.contains(&format!("{}\n", self.lines.join("\n"))), "{:#?}", self.lines);
    }
}

const P1: &str = "8=FIX.4.4|9=5|35=0|10=163|";
const P2: &str = "8=FIX.4.4|9=5|35=0|10=162|";

#[test]
fn the_hunter_answers_as_the_proved_program_does() {
    let mut told = Told::section("P12");
    told.push("push", &separated(&format!("{P2}{P1}")));
    told.take("take");
    told.take("take");
    told.stands();
    let mut told = Told::section("waiting");
    for chunk in ["8=FIX.4.4|9=0003", "0|35=", P1] {
        told.push("push", &separated(chunk));
        told.take("take");
    }
    told.end("end");
    told.take("take");
    told.take("take");
    told.stands();
    let mut told = Told::section("damaged");
    told.push("push", &separated(&format!("8=FIX{P1}")));
    told.take("take");
    told.stands();
}

#[test]
fn the_hunter_keeps_its_limits_and_orders_as_the_proved_program_does() {
    let mut told = Told::section("sizes");
    told.push("push 8193", &[b'x'; 8_193]);
    told.hunter.reset();
    told.push("push 16385", &[b'x'; 16_385]);
    told.push("push 16384", &[b'x'; 16_384]);
    told.push("push none", b"");
    told.push("push one", b"x");
    told.take("take");
    told.push("push one", b"x");
    told.stands();
    let mut told = Told::section("orders");
    told.take("take first");
    told.end("end");
    told.end("end again");
    told.push("push", b"8=");
    told.take("take");
    told.stands();
}

#[test]
fn p12_comes_out_however_it_is_cut() {
    let stream = separated(&format!("{P2}{P1}"));
    for at in 0..=stream.len() {
        let (mut hunter, mut frames) = (Hunter::new(), Vec::new());
        for chunk in [&stream[..at], &stream[at..]] {
            hunter.push(chunk).expect("it fits");
            while let Some(frame) = hunter.take() {
                frames.push(Bars(frame).to_string());
            }
        }
        assert_eq!((frames, hunter.dropped()), (vec![P1.to_string()], 26), "cut at {at}");
    }
}
