//! Scripts of roster and bench calls for the console, with the answers that the second
//! implementation gives: what the linked calls keep no state for.

use crate::cases::{self, Chance};
use crate::model::{self, Bench, Id, Name, Refusal, Roster};
use std::io::Write;
use std::process::{Command, Stdio};

fn hex(bytes: &[u8]) -> String {
    bytes.iter().map(|b| format!("{b:02x}")).collect()
}

fn sign(facing: u8) -> char {
    match facing {
        1 => '+',
        2 => '-',
        _ => '?',
    }
}

/// A line of a script, the call that it makes, and the answer that is expected.
struct Step {
    call: &'static str,
    line: String,
    number: u8,
    answer: String,
}

fn step(call: &'static str, part: &str, word: &str, line: String, answer: Result<(), Refusal>) -> Step {
    let (number, answer) = match answer {
        Ok(()) => (0, word.to_string()),
        Err(r) => (r.number, format!("refused {part} {} place {}", r.number, r.place)),
    };
    Step {
        call,
        line,
        number,
        answer,
    }
}

struct Desk {
    roster: Roster,
    bench: Bench,
    ids: Vec<Id>,
}

impl Desk {
    fn some_id(&self, chance: &mut Chance) -> Id {
        match chance.below(20) {
            0 => [0; 16],
            1 => cases::id(chance),
            _ => chance.pick(&self.ids),
        }
    }

    fn announce(&mut self, chance: &mut Chance) -> Step {
        let id = self.some_id(chance);
        let counter = if chance.one_in(30) { 0 } else { 1 + chance.below(99) as u32 };
        let size = if chance.one_in(30) { chance.pick(&[0, 33]) } else { 1 + chance.below(3) };
        let mark = usize::from(id[15]) * 64 + usize::from(id[7]) * 512;
        let mut vehicles: Vec<(Name, u8)> = (0..size)
            .map(|k| (cases::name(chance, mark + k), 1 + chance.below(2) as u8))
            .collect();
        if chance.one_in(20) && size > 1 {
            match chance.below(3) {
                0 => vehicles[1].0 = vehicles[0].0,
                1 => vehicles[1].1 = 0,
                _ => vehicles[1].0[0] = 0x1f,
            }
        }
        let fields: String = vehicles
            .iter()
            .map(|(name, facing)| format!(" x{}{}", hex(name), sign(*facing)))
            .collect();
        let line = format!("announce {} {counter}{fields}", hex(&id));
        let answer = self.roster.announce(id, counter, &vehicles);
        step("announce", "roster", "announced", line, answer)
    }

    fn forget(&mut self, chance: &mut Chance) -> Step {
        let id = self.some_id(chance);
        let line = format!("forget {}", hex(&id));
        step("forget", "roster", "forgotten", line, self.roster.forget(&id))
    }

    fn inaugurate(&mut self, chance: &mut Chance) -> Step {
        let etb = if chance.one_in(20) { 0 } else { 1 + chance.below(9) as u32 };
        let count = if chance.one_in(40) { 64 } else { chance.below(5) };
        let mut formation: Vec<(Id, u8)> = Vec::new();
        while formation.len() < count {
            let mut id = self.some_id(chance);
            if count == 64 {
                id[5] = formation.len() as u8;
            }
            let facing = if chance.one_in(40) { 0 } else { 1 + chance.below(2) as u8 };
            formation.push((id, facing));
        }
        let fields: String = formation
            .iter()
            .map(|(id, facing)| format!(" {}{}", hex(id), sign(*facing)))
            .collect();
        let line = format!("inaugurate {etb}{fields}");
        let answer = self.bench.inaugurate(etb, &formation);
        step("inaugurate", "bench", "inaugurated", line, answer)
    }

    /// Mostly an identity of the formation.
    fn coupled_id(&self, chance: &mut Chance) -> Id {
        if self.bench.formation.is_empty() || chance.one_in(6) {
            self.some_id(chance)
        } else {
            chance.pick(&self.bench.formation).0
        }
    }

    fn claim(&mut self, chance: &mut Chance) -> Step {
        let id = self.coupled_id(chance);
        let vehicle = chance.pick(&[0, 1, 1, 1, 2, 2, 3, 32, 33]);
        let direction = chance.pick(&[0, 1, 1, 1, 2, 2, 2, 3]);
        let line = format!("claim {} {vehicle} {direction}", hex(&id));
        let answer = self.bench.claim(id, vehicle, direction);
        step("claim", "bench", "claimed", line, answer)
    }

    fn yield_claim(&mut self, chance: &mut Chance) -> Step {
        let id = self.coupled_id(chance);
        let line = format!("yield {}", hex(&id));
        step("yield", "bench", "yielded", line, self.bench.yield_claim(id))
    }

    fn confirm(&mut self, chance: &mut Chance) -> Step {
        let mut names: Vec<Name> = Vec::new();
        for (i, (id, _)) in self.bench.formation.iter().enumerate() {
            if let Some(consist) = self.roster.fleet.get(id) {
                names.extend(consist.vehicles.iter().map(|v| v.0));
            }
            if chance.one_in(3) {
                names.push(cases::name(chance, 0xf000 + i));
            }
        }
        if chance.one_in(10) && names.len() > 1 {
            names[1] = names[0];
        }
        let fields: String = names.iter().map(|n| format!(" x{}", hex(n))).collect();
        let answer = self.bench.confirm(&names);
        step("confirm", "bench", "confirmed", format!("confirm{fields}"), answer)
    }

    fn withdraw(&mut self) -> Step {
        let answer = self.bench.withdraw();
        step("withdraw", "bench", "withdrawn", "withdraw".into(), answer)
    }

    /// Composing answers a line, and then the buffer.
    fn compose(&mut self, chance: &mut Chance) -> Step {
        let room = chance.pick(&[0, 100, 200, 300, 5000]);
        let mut buffer = vec![0xa5; room];
        let (number, answer) = match model::compose(&self.bench, &self.roster.fleet, room) {
            Ok(bytes) => {
                buffer[..bytes.len()].copy_from_slice(&bytes);
                (0, format!("composed {}", bytes.len()))
            }
            Err(r) => (r.number, format!("refused composing {} place {}", r.number, r.place)),
        };
        let shown = if room == 0 { "-".into() } else { hex(&buffer) };
        Step {
            call: "compose",
            line: format!("compose roster {room}"),
            number,
            answer: format!("{answer}\nbytes {shown}"),
        }
    }

    fn step(&mut self, chance: &mut Chance) -> Step {
        match chance.below(16) {
            0..=4 => self.announce(chance),
            5 => self.forget(chance),
            6 => self.inaugurate(chance),
            7..=8 => self.claim(chance),
            9 => self.yield_claim(chance),
            10..=11 => self.confirm(chance),
            12 => self.withdraw(),
            _ => self.compose(chance),
        }
    }
}

/// Enough identities to fill a roster, in some scripts.
fn desk(chance: &mut Chance) -> Desk {
    let count = chance.pick(&[4, 6, 80]);
    let ids = (0..count)
        .map(|i| {
            let mut id = [0; 16];
            id[7] = i as u8;
            id[15] = 1 + i as u8;
            id
        })
        .collect();
    Desk {
        roster: Roster::default(),
        bench: Bench::default(),
        ids,
    }
}

fn answers_of(console: &str, script: &str) -> String {
    let mut child = Command::new(console)
        .stdin(Stdio::piped())
        .stdout(Stdio::piped())
        .spawn()
        .expect("the console runs: build it first, by 'tools/build.sh run console'");
    let mut input = child.stdin.take().unwrap();
    let text = script.to_string();
    let writer = std::thread::spawn(move || input.write_all(text.as_bytes()));
    let output = child.wait_with_output().expect("the console ends");
    let _ = writer.join();
    String::from_utf8_lossy(&output.stdout).into_owned()
}

/// Plays so many scripts, and says of each call whether the console answered as expected.
pub fn played(chance: &mut Chance, console: &str, scripts: usize) -> Vec<(&'static str, u32, bool)> {
    let mut results = Vec::new();
    for _ in 0..scripts {
        let mut desk = desk(chance);
        let steps: Vec<Step> = (0..500).map(|_| desk.step(chance)).collect();
        let script: String = steps.iter().map(|s| s.line.clone() + "\n").collect();
        let answers = answers_of(console, &script);
        let mut lines = answers.lines();
        for step in &steps {
            let right = step.answer.lines().all(|want| lines.next() == Some(want));
            if !right {
                println!("console: {} should answer {}", step.line, step.answer);
            }
            results.push((step.call, u32::from(step.number), right));
        }
    }
    results
}
