//! Plans the train of a fleet list, led from the last vehicle of its last consist, and prints the
//! coach order. Usage: coach_order LIST

mod yoltsjer;

use yoltsjer::{Answer, Told, Train};

const LONGEST_COMPOSITION: usize = 4303;

fn explained(told: Told) -> String {
    let Answer { line, place, .. } = told.answer;
    let number = told.status;
    let place = if number == 1 {
        format!("line {line} byte {place}")
    } else {
        format!("place {place}")
    };
    format!("refused: number {number} {place} (docs/RULES.md lists the numbers)")
}

fn book_of(list: &[u8]) -> Result<Vec<u8>, Told> {
    let need = yoltsjer::check_list(list).carried_out()?.length as usize;
    let mut book = vec![0; need];
    yoltsjer::import_list(list, &mut book).carried_out()?;
    Ok(book)
}

/// The rows of the operational vehicles.
fn vehicles(composition: &[u8]) -> impl Iterator<Item = &[u8]> {
    let consists = 17 + 24 * usize::from(composition[16]);
    let from = consists + 1 + 20 * usize::from(composition[consists]);
    composition[from + 1..].chunks(24)
}

fn composition(book: &[u8]) -> Result<Vec<u8>, Told> {
    let count = usize::from(book[2]) * 256 + usize::from(book[3]);
    let entries: Vec<&[u8]> = book[4..4 + 21 * count].chunks(21).collect();
    let formation: Vec<u8> = entries.iter().flat_map(|e| [&e[..16], &[1]].concat()).collect();
    let (claimed, vehicle) = entries.last().map_or((&[][..], 0), |e| (&e[..16], e[20]));
    let train = Train {
        etb_counter: 1,
        formation: &formation,
        claimed,
        vehicle,
        direction: 2,
        confirmed: &[],
    };
    let mut out = vec![0; LONGEST_COMPOSITION];
    let length = yoltsjer::plan(book, &train, &mut out).carried_out()?.length as usize;
    out.truncate(length);
    Ok(out)
}

fn main() {
    let Some(path) = std::env::args().nth(1) else {
        eprintln!("usage: coach_order LIST, a file with a fleet list");
        std::process::exit(2);
    };
    let list = std::fs::read(&path).unwrap_or_else(|e| {
        eprintln!("{path}: {e}");
        std::process::exit(2);
    });
    match book_of(&list).and_then(|book| composition(&book)) {
        Ok(bytes) => {
            for row in vehicles(&bytes) {
                let name: String = row[..16].iter().take_while(|b| **b != 0).map(|b| *b as char).collect();
                let sign = ['?', '+', '-'][usize::from(row[20])];
                let leads = if row[17] == 2 { " (leads)" } else { "" };
                println!("{:02} {sign} {name}{leads}", row[16]);
            }
        }
        Err(told) => {
            eprintln!("{}", explained(told));
            std::process::exit(1);
        }
    }
}
