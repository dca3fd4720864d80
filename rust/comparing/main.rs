//! Compares the archives' calls with the real crate's.
//!   compare full|quick DIFFERENCES SERVER..     the page of differences; the command that runs the server
//!   compare sample OUT                          writes a stored sample of the real crate's answers
mod case;
mod cases;
mod inputs;
mod judge;
mod pipe;
mod real;
mod rows;
mod rule;
mod sample;
mod streams;
mod tally;

use case::Case;
use std::io::{BufReader, Write};
use std::process::{exit, ChildStdin, Command, Stdio};
use std::sync::mpsc::{sync_channel, Receiver, SyncSender};

/// The cases on their way: to the server as bytes, and to the judge as they are.
struct Sender {
    server: ChildStdin,
    judge: SyncSender<Vec<Case>>,
    bytes: Vec<u8>,
    cases: Vec<Case>,
}

impl Sender {
    fn put(&mut self, case: Case) {
        pipe::put(&case, &mut self.bytes);
        self.cases.push(case);
        if (1 << 17) < self.bytes.len() {
            self.flush();
        }
    }

    /// The judge has the cases before the server, so that it reads what the server answers.
    fn flush(&mut self) {
        self.judge.send(std::mem::take(&mut self.cases)).expect("the judge listens");
        self.server.write_all(&self.bytes).expect("the server reads");
        self.bytes.clear();
    }
}

fn judged(cases: Receiver<Vec<Case>>, answers: impl std::io::Read) -> tally::Tally {
    let mut answers = BufReader::with_capacity(1 << 16, answers);
    let mut tally = tally::Tally::default();
    for case in cases.into_iter().flatten() {
        let ours = pipe::take(&case, &mut answers).expect("the server answers");
        tally.count(&case, &ours, &judge::due(&case));
    }
    tally
}

fn main() {
    let words: Vec<String> = std::env::args().skip(1).collect();
    real::silence();
    if words[0] == "sample" {
        let file = std::fs::File::create(&words[1]).expect("the sample's file");
        let lines = sample::write(std::io::BufWriter::new(file)).expect("the sample is written");
        println!("{lines} answers of the real crate in {}", words[1]);
        return;
    }
    let amount = if words[0] == "quick" { cases::QUICK } else { cases::FULL };
    let page = std::fs::read_to_string(&words[1]).expect("the page of differences");
    let missing = rows::missing(&page);
    if !missing.is_empty() {
        eprintln!("{} does not have, once: {missing:?}", words[1]);
        exit(1);
    }
    let mut server = Command::new(&words[2]);
    let mut server = server.args(&words[3..]).stdin(Stdio::piped()).stdout(Stdio::piped()).spawn().expect("the server starts");
    let (to, answers) = (server.stdin.take().unwrap(), server.stdout.take().unwrap());
    let (judge, judging) = sync_channel(16);
    let generator = std::thread::spawn(move || {
        let mut sender = Sender { server: to, judge, bytes: Vec::new(), cases: Vec::new() };
        cases::all(amount, &mut |case| sender.put(case));
        sender.flush();
    });
    let tally = judged(judging, answers);
    generator.join().expect("all cases were sent");
    let good = server.wait().expect("the server ends").success();
    exit(if tally.print() && good { 0 } else { 1 });
}
