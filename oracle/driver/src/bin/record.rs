//! record [--check] FOLDER: writes the recorded sample, the requests to FOLDER/stdin and the Rust's answers to FOLDER/stdout; with --check says whether
//! the Rust answers today what stands there.
use std::fs;

fn main() {
    driver::on_large_stack(|| {
        let words: Vec<String> = std::env::args().skip(1).collect();
        let folder = words.iter().find(|word| !word.starts_with("--")).expect("the folder of the sample");
        let (requests, answers) = (format!("{folder}/stdin"), format!("{folder}/stdout"));
        if words.iter().any(|word| word == "--check") {
            let read = |name: &str| fs::read_to_string(name).expect("the sample can be read");
            let (asked, recorded) = (read(&requests), read(&answers));
            let alike = driver::sample::still_answered(&asked, &recorded);
            println!("the recorded sample, {} requests: the Rust answers {}", asked.lines().count(), if alike { "the same" } else { "otherwise" });
            return if !alike {
                std::process::exit(1)
            };
        }
        let (asked, recorded) = driver::sample::recorded();
        println!("{} requests, {} and {} bytes", asked.lines().count(), asked.len(), recorded.len());
        fs::write(requests, asked).and_then(|()| fs::write(answers, recorded)).expect("the sample can be written");
    });
}
