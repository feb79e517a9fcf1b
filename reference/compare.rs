//! Compares the proved core with the second implementation on many cases, and prints how often each
//! answer came. Usage: compare CASES SEED CONSOLE, where CONSOLE is the path of the console program.

mod cases;
#[path = "../examples/rust/yoltsjer.rs"]
mod core;
mod model;
mod scripts;

use crate::cases::{Chance, Plan};
use crate::core::{Answer, Told, Train};
use crate::model::{Bench, Fleet, Id, Name, Refusal};
use std::collections::BTreeMap;

/// What a call should answer, and what its buffer should hold at the front.
struct Expected {
    told: Told,
    written: Vec<u8>,
}

fn carried_out(written: Vec<u8>, lines: usize) -> Expected {
    let answer = Answer {
        length: written.len() as u64,
        lines: lines as u64,
        ..Answer::default()
    };
    Expected {
        told: Told { status: 0, answer },
        written,
    }
}

/// What a call that only checks should answer.
fn only_length(length: usize) -> Expected {
    let answer = Answer {
        length: length as u64,
        ..Answer::default()
    };
    Expected {
        told: Told { status: 0, answer },
        written: Vec::new(),
    }
}

fn refused(refusal: Refusal) -> Expected {
    let answer = Answer {
        line: refusal.line as u64,
        place: refusal.place as u64,
        ..Answer::default()
    };
    Expected {
        told: Told {
            status: u32::from(refusal.number),
            answer,
        },
        written: Vec::new(),
    }
}

/// How often each call answered each number.
#[derive(Default)]
struct Tally {
    counts: BTreeMap<(&'static str, u32), u64>,
    cases: u64,
    differences: u64,
}

const FILL: u8 = 0xa5;

impl Tally {
    fn note(&mut self, call: &'static str, number: u32) {
        self.cases += 1;
        *self.counts.entry((call, number)).or_default() += 1;
    }

    /// Counts the answer, and reports it where it is not the expected one.
    fn hold(&mut self, call: &'static str, got: Told, buffer: &[u8], want: &Expected, input: &[u8]) {
        self.note(call, got.status);
        let n = want.written.len();
        let right = got == want.told
            && buffer[..n] == want.written[..]
            && buffer[n..].iter().all(|b| *b == FILL);
        if !right {
            self.differences += 1;
            if self.differences <= 10 {
                println!("{call}: answered {got:?}, expected {:?}", want.told);
                println!("  of {}", hex(input));
            }
        }
    }
}

fn hex(bytes: &[u8]) -> String {
    bytes.iter().take(600).map(|b| format!("{b:02x}")).collect()
}

fn try_list(tally: &mut Tally, chance: &mut Chance) {
    let text = cases::list(chance);
    let free = model::import(&text, usize::MAX);
    let lines = text.iter().filter(|b| **b == b'\n').count();
    let checked = match &free {
        Ok(book) => only_length(book.len()),
        Err(r) => refused(*r),
    };
    tally.hold("check list", core::check_list(&text), &[], &checked, &text);
    let need = free.as_ref().map_or(100, |book| book.len());
    let mut out = vec![FILL; cases::room(chance, need)];
    let want = match model::import(&text, out.len()) {
        Ok(book) => carried_out(book, 0),
        Err(r) => refused(r),
    };
    let got = core::import_list(&text, &mut out);
    tally.hold("import list", got, &out, &want, &text);
    if got.status == 0 {
        // an imported list exports as the same text
        let book = out[..got.answer.length as usize].to_vec();
        let mut back = vec![FILL; text.len() + 3];
        let again = core::export_book(&book, &mut back);
        tally.hold("list again", again, &back, &carried_out(text, lines), &book);
    }
}

fn try_book(tally: &mut Tally, chance: &mut Chance) {
    let book = cases::book(chance);
    let free = model::export(&book, usize::MAX);
    let checked = match &free {
        Ok((text, _)) => only_length(text.len()),
        Err(r) => refused(*r),
    };
    tally.hold("check book", core::check_book(&book), &[], &checked, &book);
    let need = free.map_or(100, |(text, _)| text.len());
    let mut out = vec![FILL; cases::room(chance, need)];
    let want = match model::export(&book, out.len()) {
        Ok((text, lines)) => carried_out(text, lines),
        Err(r) => refused(r),
    };
    let got = core::export_book(&book, &mut out);
    tally.hold("export book", got, &out, &want, &book);
    if got.status == 0 {
        // an exported book imports as the same book
        let list = out[..got.answer.length as usize].to_vec();
        let mut back = vec![FILL; book.len() + 3];
        let again = core::import_list(&list, &mut back);
        tally.hold("book again", again, &back, &carried_out(book, 0), &list);
    }
}

fn entries_of(formation: &[u8]) -> Vec<(Id, u8)> {
    formation
        .chunks(17)
        .map(|entry| (entry[..16].try_into().unwrap(), entry[16]))
        .collect()
}

/// What a plan comes to: the book is opened, the calls are made on a new bench, and it is composed.
fn planned(plan: &Plan, room: usize) -> Result<Vec<u8>, Refusal> {
    let short = |number| Refusal {
        number,
        line: 0,
        place: 0,
    };
    let fleet: Fleet = model::open(&plan.book)?.into_iter().collect();
    if plan.formation.len() % 17 != 0 {
        return Err(short(7));
    }
    let mut bench = Bench::default();
    bench.inaugurate(plan.etb, &entries_of(&plan.formation))?;
    if !plan.claimed.is_empty() {
        let id = Id::try_from(plan.claimed.as_slice()).map_err(|_| short(5))?;
        bench.claim(id, plan.vehicle, plan.direction)?;
    }
    if !plan.confirmed.is_empty() {
        if plan.confirmed.len() % 16 != 0 {
            return Err(short(7));
        }
        let names: Vec<Name> = plan
            .confirmed
            .chunks(16)
            .map(|n| n.try_into().unwrap())
            .collect();
        bench.confirm(&names)?;
    }
    model::compose(&bench, &fleet, room)
}

fn try_plan(tally: &mut Tally, chance: &mut Chance) {
    let plan = cases::plan(chance);
    let need = planned(&plan, usize::MAX).map_or(300, |bytes| bytes.len());
    let mut out = vec![FILL; cases::room(chance, need)];
    let want = match planned(&plan, out.len()) {
        Ok(bytes) => carried_out(bytes, 0),
        Err(r) => refused(r),
    };
    let train = Train {
        etb_counter: plan.etb,
        formation: &plan.formation,
        claimed: &plan.claimed,
        vehicle: plan.vehicle,
        direction: plan.direction,
        confirmed: &plan.confirmed,
    };
    let got = core::plan(&plan.book, &train, &mut out);
    let input = [plan.formation.clone(), plan.claimed.clone(), plan.confirmed].concat();
    tally.hold("plan", got, &out, &want, &input);
}

fn report(tally: &Tally) -> bool {
    let mut by_call: BTreeMap<&str, Vec<String>> = BTreeMap::new();
    for ((call, number), count) in &tally.counts {
        by_call.entry(call).or_default().push(format!("{number}: {count}"));
    }
    for (call, counts) in by_call {
        println!("{call:12} {}", counts.join(", "));
    }
    let missed: Vec<u32> = (0..=24)
        .filter(|n| !tally.counts.keys().any(|k| k.1 == *n))
        .collect();
    println!("{} answers compared, {} differ", tally.cases, tally.differences);
    println!("numbers never met: {missed:?}");
    tally.differences == 0 && missed.is_empty()
}

fn main() {
    let args: Vec<String> = std::env::args().collect();
    let [_, cases, seed, console] = args.as_slice() else {
        eprintln!("usage: compare CASES SEED CONSOLE");
        std::process::exit(2);
    };
    let cases: u64 = cases.parse().expect("CASES is a number");
    let mut chance = Chance::new(seed.parse().expect("SEED is a number"));
    let mut tally = Tally::default();
    for i in 0..cases {
        match i % 4 {
            0 => try_list(&mut tally, &mut chance),
            1 => try_book(&mut tally, &mut chance),
            _ => try_plan(&mut tally, &mut chance),
        }
    }
    for (call, number, right) in scripts::played(&mut chance, console, 40) {
        tally.note(call, number);
        tally.differences += u64::from(!right);
    }
    if !report(&tally) {
        std::process::exit(1);
    }
}
