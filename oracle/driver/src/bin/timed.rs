//! timed [--times N] [FILE]: builds of FILE (standard input by default), the Rust's and ours in turn on the same request, each N times (20), the
//! shortest of five rounds, in the processor's time.
//! The Rust's builders are made ahead; ours is given the dictionary's bytes and checks them in each build, which is timed on its own as well.
use std::hint::black_box;
use std::io::BufRead;
use std::time::Duration;

use driver::given::Given;
use driver::ours::library::{Built, build_into, check};
use driver::protocol::{KEPT, Request};
use driver::used;

#[derive(Default)]
struct Total {
    requests: u64,
    given: Duration,
    ours: Duration,
    checks: Duration,
}

impl Total {
    fn print(&self, what: &str, times: u32) {
        if self.requests == 0 {
            return;
        }
        let each = |spent: Duration| spent.as_secs_f64() * 1e6 / (self.requests as f64 * f64::from(times));
        let (given, ours, checks) = (each(self.given), each(self.ours), each(self.checks));
        println!(
            "{what:44} {:>7} builds, each: Rust {given:8.2} us, ours {ours:8.2} us, of it the check {checks:8.2} us; ours / Rust {:6.2}, without the check {:6.2}",
            self.requests,
            ours / given,
            (ours - checks) / given
        );
    }
}

/// The shortest of some rounds.
const ROUNDS: u32 = 5;

fn timed<T>(times: u32, mut work: impl FnMut() -> T) -> Duration {
    let round = || {
        let start = used();
        for _ in 0..times {
            black_box(work());
        }
        used() - start
    };
    std::iter::repeat_with(round).take(ROUNDS as usize).min().unwrap_or_default()
}

fn main() {
    driver::on_large_stack(|| {
        let words: Vec<String> = std::env::args().skip(1).collect();
        let times = words.iter().position(|word| word == "--times").and_then(|place| words.get(place + 1)?.parse().ok()).unwrap_or(20);
        let (mut given, mut dictionaries) = (Given::default(), vec![vec![]; KEPT]);
        let (mut all, mut sizes) = (Total::default(), [(); 3].map(|()| Total::default()));
        let mut built = Built::default();
        for line in std::io::stdin().lock().lines().map_while(Result::ok) {
            match Request::parse(&line) {
                Some(Request::Dictionary(number, bytes)) => {
                    given.answer(&Request::Dictionary(number, bytes.clone()));
                    dictionaries[number] = bytes;
                }
                Some(Request::Build(reading)) if given.build_only(&reading) => {
                    let dictionary = &dictionaries[reading.dictionary];
                    build_into(dictionary, &reading, &mut built);
                    let size = usize::from(reading.message.len() > 200) + usize::from(reading.message.len() > 2_000);
                    let spent = [
                        timed(times, || given.build_only(&reading)),
                        timed(times, || build_into(dictionary, &reading, &mut built)),
                        timed(times, || check(dictionary)),
                    ];
                    for total in [&mut all, &mut sizes[size]] {
                        total.requests += 1;
                        total.given += spent[0];
                        total.ours += spent[1];
                        total.checks += spent[2];
                    }
                }
                _ => {}
            }
        }
        all.print("all", times);
        for (total, what) in sizes.iter().zip(["messages up to 200 bytes", "messages of 201 to 2,000 bytes", "messages over 2,000 bytes"]) {
            total.print(what, times);
        }
    });
}
