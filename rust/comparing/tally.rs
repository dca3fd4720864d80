//! How many of which kind were compared, and what differed.
use crate::case::*;
use crate::judge::Due;
use crate::rows::Row;
use std::collections::BTreeMap;

#[derive(Default)]
pub struct Tally {
    compared: BTreeMap<(Call, Kind), u64>,
    outside: u64,
    rows: BTreeMap<(Row, Call), u64>,
    differ: u64,
    smallest: Option<(usize, String)>,
}

fn hex(bytes: &[u8]) -> String {
    let shown: String = bytes.iter().take(64).map(|b| format!("{b:02x}")).collect();
    if bytes.len() <= 64 { shown } else { format!("{shown}.. ({} bytes)", bytes.len()) }
}

fn shown(side: &str, said: &Said) -> String {
    let told: Vec<String> = said.told.iter().map(|t| format!("{} {} {}", t.number, t.first, t.second)).collect();
    format!("  {side}: told {}; destination {}\n", told.join(", "), hex(&said.dest))
}

impl Tally {
    pub fn count(&mut self, case: &Case, ours: &Said, due: &Due) {
        *self.compared.entry((case.call, case.kind)).or_default() += 1;
        self.outside += !due.within as u64;
        if *ours == due.said {
            match due.otherwise {
                None => return,
                Some(Some(row)) => {
                    *self.rows.entry((row, case.call)).or_default() += 1;
                    return;
                }
                Some(None) => (),
            }
        }
        self.differ += 1;
        let size = case.source.len() + case.room + case.pieces.len();
        if self.smallest.as_ref().is_none_or(|(least, _)| size < *least) {
            let head = format!(
                "{} of {} with sentinel {:02x}, destination of {} bytes {:02x}, pieces {:?}\n",
                case.call.name(), hex(&case.source), case.sentinel, case.room, case.fill, case.pieces
            );
            let real = crate::real::says(case);
            let text = head + &shown("ours", ours) + &shown("due ", &due.said) + &shown("Rust", &real);
            self.smallest = Some((size, text));
        }
    }

    /// Prints the tables; true if nothing differs beyond the list.
    pub fn print(&self) -> bool {
        print!("{:<32}", "compared");
        for kind in Kind::ALL {
            print!("{:>12}", kind.name());
        }
        println!("{:>12}", "all");
        let mut calls: Vec<Call> = self.compared.keys().map(|(call, _)| *call).collect();
        calls.dedup();
        for call in calls {
            let of = |kind| self.compared.get(&(call, kind)).copied().unwrap_or(0);
            print!("{:<32}", call.name());
            for kind in Kind::ALL {
                print!("{:>12}", of(kind));
            }
            println!("{:>12}", Kind::ALL.into_iter().map(of).sum::<u64>());
        }
        println!("\nthe Rust does otherwise, as docs/DIFFERENCES.md lists, and ours as 01 says:");
        for ((row, call), n) in &self.rows {
            println!("{n:>12}  {:<32}{row}", call.name());
        }
        let all: u64 = self.compared.values().sum();
        println!("\n{} inside 01's domain of equality, {} outside it", all - self.outside, self.outside);
        if let Some((_, text)) = &self.smallest {
            print!("\nthe smallest that differs:\n{text}");
        }
        println!("{all} compared, {} differ beyond docs/DIFFERENCES.md", self.differ);
        self.differ == 0
    }
}
