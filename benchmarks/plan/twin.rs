// The same work as crates/plan_speed, by the second implementation in Rust.
#[allow(dead_code)]
#[path = "../../reference/model.rs"]
mod model;

use model::{Bench, Fleet, Id, Name};
use std::hint::black_box;
use std::io::Read;
use std::time::Instant;

const TIMES: u128 = 200;

fn timed<T>(mut work: impl FnMut() -> T) -> (T, u128) {
    let start = Instant::now();
    for _ in 1..TIMES {
        black_box(work());
    }
    let last = work();
    (last, start.elapsed().as_nanos() / TIMES)
}

fn asked(fleet: &Fleet, ids: &[Id]) -> usize {
    let mut known = 0;
    for id in ids {
        let size = fleet.get(id).map_or(0, |c| c.vehicles.len());
        for j in 0..size {
            let vehicle = black_box(fleet).get(id).map(|c| c.vehicles[j]);
            known += usize::from(vehicle.is_some_and(|v| v.1 != 0));
        }
    }
    known
}

fn main() {
    let mut text = Vec::new();
    std::io::stdin().read_to_end(&mut text).unwrap();
    let Ok(book) = model::import(&text, usize::MAX) else {
        println!("refused");
        return;
    };
    let (opened, open_took) = timed(|| model::open(black_box(&book)));
    let entries = opened.unwrap();
    let fleet: Fleet = entries.iter().cloned().collect();
    let ids: Vec<Id> = entries.iter().map(|e| e.0).collect();
    let (known, ask_took) = timed(|| asked(&fleet, &ids));
    let formation: Vec<(Id, u8)> = ids.iter().map(|id| (*id, 1)).collect();
    let mut bench = Bench::default();
    let _ = bench.inaugurate(1, &formation);
    if let Some((id, consist)) = entries.last() {
        let _ = bench.claim(*id, consist.vehicles.len() as u8, 2);
    }
    let (plain, plain_took) = timed(|| model::compose(black_box(&bench), &fleet, 4303));
    let mut names: Vec<Name> = entries.iter().flat_map(|e| e.1.vehicles.iter().map(|v| v.0)).collect();
    names.reverse();
    let _ = bench.confirm(&names);
    let (listed, listed_took) = timed(|| model::compose(black_box(&bench), &fleet, 4303));
    eprintln!("{open_took} {ask_took} {plain_took} {listed_took}");
    let length = |r: Result<Vec<u8>, model::Refusal>| r.map_or(0, |bytes| bytes.len());
    println!("vehicles {known} composed {} confirmed {}", length(plain), length(listed));
}
