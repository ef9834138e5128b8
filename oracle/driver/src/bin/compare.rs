//! compare [--ours COMMAND | --library] [--domain] [--show N] [--stop] [FILE]: requests of FILE (standard input by default) to every side.
use std::io::BufRead;

use driver::compare::Comparison;
use driver::ours::{Ours, Program};

fn after(words: &[String], flag: &str) -> Option<String> {
    words.iter().position(|word| word == flag).and_then(|place| words.get(place + 1).cloned())
}

fn ours(words: &[String]) -> Option<Box<dyn Ours>> {
    if let Some(command) = after(words, "--ours") {
        return Some(Box::new(Program::start(&command).expect("our program can be started")));
    }
    if words.iter().any(|word| word == "--library") {
        #[cfg(feature = "library")]
        return Some(Box::new(driver::ours::library::Library::default()));
        #[cfg(not(feature = "library"))]
        panic!("built without LIBRARY");
    }
    None
}

fn main() {
    driver::on_large_stack(|| {
        let words: Vec<String> = std::env::args().skip(1).collect();
        let domain_only = words.iter().any(|word| word == "--domain");
        let shown = after(&words, "--show").and_then(|n| n.parse().ok()).unwrap_or(10);
        let mut comparison = Comparison::new(ours(&words), domain_only, shown);
        comparison.stops = words.iter().any(|word| word == "--stop");
        let valued = ["--ours", "--show"];
        let file =
            words.iter().enumerate().find(|(place, word)| !word.starts_with("--") && (*place == 0 || !valued.contains(&words[place - 1].as_str())));
        match file {
            Some((_, name)) => {
                let file = std::fs::File::open(name).expect("the file of requests can be read");
                comparison.run(&mut std::io::BufReader::new(file).lines().map_while(Result::ok));
            }
            None => comparison.run(&mut std::io::stdin().lock().lines().map_while(Result::ok)),
        }
        if !comparison.report() {
            std::process::exit(1);
        }
    });
}
