//! Cases made by chance: fleets, lists, books and plans, whole and damaged.

use crate::model::{self, Bench, Consist, Fleet, Id, Name};

/// A generator of numbers (xorshift); the same seed gives the same cases.
pub struct Chance(u64);

impl Chance {
    pub fn new(seed: u64) -> Chance {
        Chance(seed.wrapping_mul(0x9E37_79B9_7F4A_7C15) | 1)
    }

    pub fn next(&mut self) -> u64 {
        self.0 ^= self.0 << 13;
        self.0 ^= self.0 >> 7;
        self.0 ^= self.0 << 17;
        self.0.wrapping_mul(0x2545_F491_4F6C_DD1D) >> 11
    }

    pub fn below(&mut self, n: usize) -> usize {
        (self.next() % n as u64) as usize
    }

    pub fn one_in(&mut self, n: usize) -> bool {
        self.below(n) == 0
    }

    pub fn pick<T: Copy>(&mut self, from: &[T]) -> T {
        from[self.below(from.len())]
    }
}

/// Identities come from a small stock as well as from anywhere, so that they meet again.
pub fn id(chance: &mut Chance) -> Id {
    let mut id = [0; 16];
    if chance.one_in(3) {
        for byte in &mut id {
            *byte = chance.next() as u8;
        }
    }
    id[chance.pick(&[0, 7, 15])] = 1 + chance.below(9) as u8;
    id
}

pub fn name(chance: &mut Chance, mark: usize) -> Name {
    let mut text: Vec<u8> = format!("{mark:x}").into_bytes();
    let length = chance.pick(&[1, 2, 3, 6, 12, 14, 15]).max(text.len());
    while text.len() < length.min(15) {
        let byte = match chance.below(5) {
            0 => b'"',
            1 => b'\\',
            2 => b' ',
            _ => 0x21 + chance.below(0x5e) as u8,
        };
        text.push(byte);
    }
    text.truncate(15);
    let mut name = [0; 16];
    name[..text.len()].copy_from_slice(&text);
    name
}

fn counter(chance: &mut Chance) -> u32 {
    match chance.below(4) {
        0 => 1 + chance.below(9) as u32,
        1 => u32::MAX - chance.below(2) as u32,
        2 => 1 << chance.below(32),
        _ => (chance.next() as u32).max(1),
    }
}

fn consist(chance: &mut Chance, size: usize, mark: usize) -> Consist {
    let vehicles = (0..size)
        .map(|k| (name(chance, mark * 64 + k), 1 + chance.below(2) as u8))
        .collect();
    Consist {
        counter: counter(chance),
        vehicles,
    }
}

/// How many consists, and how many vehicles each: small fleets mostly, and the extremes.
fn sizes(chance: &mut Chance) -> Vec<usize> {
    match chance.below(400) {
        0 => vec![10; 200],
        1 => vec![10; 201],
        2 => vec![32; 62],
        3 => vec![32; 63],
        4 => vec![1; 63],
        5 => vec![1; 64],
        6..=9 => vec![32, 31],
        10..=13 => vec![32, 32],
        14 => vec![],
        _ => (0..1 + chance.below(5))
            .map(|_| {
                let most = if chance.one_in(20) { 32 } else { 4 };
                1 + chance.below(most)
            })
            .collect(),
    }
}

/// A fleet in rising order; names are apart unless chance joins two.
pub fn entries(chance: &mut Chance) -> Vec<(Id, Consist)> {
    let sizes = sizes(chance);
    let mut ids: Vec<Id> = Vec::new();
    while ids.len() < sizes.len() {
        let mut id = id(chance);
        if sizes.len() > 20 {
            id[1] = chance.next() as u8;
            id[2] = chance.next() as u8;
        }
        if !ids.contains(&id) {
            ids.push(id);
        }
    }
    ids.sort();
    let mut entries: Vec<(Id, Consist)> = ids
        .into_iter()
        .zip(&sizes)
        .enumerate()
        .map(|(i, (id, size))| (id, consist(chance, *size, i)))
        .collect();
    if chance.one_in(12) && entries.len() > 1 {
        let from = chance.below(entries.len());
        let to = chance.below(entries.len());
        let name = entries[from].1.vehicles[0].0;
        let at = chance.below(entries[to].1.vehicles.len());
        entries[to].1.vehicles[at].0 = name;
    }
    entries
}

/// Breaks an order, an identity, a counter or a name of the entries, as a list or a book may have it.
pub fn spoil(chance: &mut Chance, entries: &mut [(Id, Consist)]) {
    if entries.is_empty() {
        return;
    }
    let at = chance.below(entries.len());
    let k = chance.below(entries[at].1.vehicles.len());
    match chance.below(7) {
        0 => entries[at].0 = [0; 16],
        1 => entries[at].0 = entries[0].0,
        2 => entries.swap(at, 0),
        3 => entries[at].1.counter = 0,
        4 => entries[at].1.vehicles[k].1 = chance.pick(&[0, 3, 255]),
        5 => entries[at].1.vehicles[k].0 = entries[at].1.vehicles[0].0,
        _ => {
            let byte = chance.below(16);
            entries[at].1.vehicles[k].0[byte] = chance.pick(&[0, 0x1f, 0x7f, 0xff, b'a']);
        }
    }
}

/// Damages bytes at some place: changed, taken out, put in, cut off or doubled.
pub fn damage(chance: &mut Chance, bytes: &mut Vec<u8>) {
    let at = chance.below(bytes.len() + 1);
    let byte = match chance.below(3) {
        0 => chance.pick(b"\"\\+- \n0129afgAF"),
        1 => chance.next() as u8,
        _ => chance.pick(&[0, 1, 2, 3, 32, 33, 200, 201, 255]),
    };
    match chance.below(6) {
        0 => bytes.truncate(at),
        1 => bytes.insert(at, byte),
        2 if at < bytes.len() => {
            bytes.remove(at);
        }
        3 => {
            let part = bytes[at..].to_vec();
            bytes.extend(part.iter().take(40));
        }
        _ if at < bytes.len() => bytes[at] = byte,
        _ => bytes.push(byte),
    }
}

/// A list, whole or damaged.
pub fn list(chance: &mut Chance) -> Vec<u8> {
    let mut entries = entries(chance);
    if chance.one_in(5) {
        spoil(chance, &mut entries);
    }
    let mut text = model::text_of(&entries).into_bytes();
    if chance.one_in(60) {
        while text.len() < 65535 {
            let more = text.clone();
            text.extend(more.iter().chain(b"x").take(65535 - text.len()));
        }
    }
    for _ in 0..chance.pick(&[0, 0, 1, 1, 2]) {
        damage(chance, &mut text);
    }
    text
}

/// A book, whole or damaged.
pub fn book(chance: &mut Chance) -> Vec<u8> {
    let mut entries = entries(chance);
    if chance.one_in(3) {
        spoil(chance, &mut entries);
    }
    let mut book = model::book_of(&entries);
    if chance.one_in(3) {
        let heads = 6 + 21 * entries.len();
        let at = chance.below(heads.min(book.len()));
        book[at] = chance.pick(&[0, 1, 2, 32, 33, 255]);
    }
    if chance.one_in(3) {
        damage(chance, &mut book);
    }
    book
}

/// A room about the length that is needed.
pub fn room(chance: &mut Chance, need: usize) -> usize {
    match chance.below(6) {
        0 => need.saturating_sub(1),
        1 => need,
        2 => need + 1,
        3 => chance.below(need + 1),
        _ => need + chance.below(300),
    }
}

/// What one plan takes.
pub struct Plan {
    pub book: Vec<u8>,
    pub etb: u32,
    pub formation: Vec<u8>,
    pub claimed: Vec<u8>,
    pub vehicle: u8,
    pub direction: u8,
    pub confirmed: Vec<u8>,
}

fn some_of(chance: &mut Chance, entries: &[(Id, Consist)]) -> Vec<(Id, u8)> {
    let mut left: Vec<Id> = entries.iter().map(|e| e.0).collect();
    let count = if chance.one_in(3) {
        left.len()
    } else {
        chance.below(left.len() + 1).max(1)
    };
    let mut formation = Vec::new();
    while formation.len() < count && !left.is_empty() {
        let id = left.remove(chance.below(left.len()));
        formation.push((id, 1 + chance.below(2) as u8));
    }
    if chance.one_in(15) && !formation.is_empty() {
        let at = chance.below(formation.len());
        match chance.below(4) {
            0 => formation[at].0 = [0; 16],
            1 => formation[at].0 = formation[0].0,
            2 => formation[at].0 = id(chance),
            _ => formation[at].1 = chance.pick(&[0, 3, 255]),
        }
    }
    if chance.one_in(200) {
        while formation.len() < 70 {
            let mut more = id(chance);
            more[3] = formation.len() as u8 * u8::from(!chance.one_in(40));
            formation.push((more, 1));
        }
    }
    formation
}

/// A list of names about the operational order, with inserted ones.
fn confirmed(chance: &mut Chance, bench: &Bench, fleet: &Fleet) -> Vec<Name> {
    let mut names: Vec<Name> = match model::compose(bench, fleet, usize::MAX) {
        Ok(bytes) => {
            let vehicles = *bytes[16 + 1 + 24 * bytes[16] as usize..].first().unwrap() as usize;
            let from = 16 + 1 + 24 * bytes[16] as usize + 1 + 20 * vehicles + 1;
            bytes[from..]
                .chunks(24)
                .map(|row| row[..16].try_into().unwrap())
                .collect()
        }
        Err(_) => vec![name(chance, 1), name(chance, 2)],
    };
    for i in 0..chance.below(4) {
        let at = match chance.below(3) {
            0 => 0,
            1 => names.len(),
            _ => chance.below(names.len() + 1),
        };
        for k in 0..1 + chance.below(2) {
            names.insert(at, name(chance, 0xf000 + 16 * i + k));
        }
    }
    if chance.one_in(8) && !names.is_empty() {
        let a = chance.below(names.len());
        let b = chance.below(names.len());
        match chance.below(4) {
            0 => names.swap(a, b),
            1 => names[a] = names[b],
            2 => {
                names.remove(a);
            }
            _ => names[a][chance.below(16)] = chance.pick(&[0, 0x1f, 0x7f]),
        }
    }
    if chance.one_in(100) {
        while names.len() < 64 {
            names.push(name(chance, 0xe000 + names.len()));
        }
    }
    names
}

pub fn plan(chance: &mut Chance) -> Plan {
    let entries = entries(chance);
    let formation = some_of(chance, &entries);
    let etb = if chance.one_in(50) { 0 } else { counter(chance) };
    let mut bench = Bench::default();
    let _ = bench.inaugurate(etb, &formation);
    let mut claimed = Vec::new();
    let mut vehicle = chance.below(256) as u8;
    let mut direction = chance.below(4) as u8;
    if !chance.one_in(3) && !formation.is_empty() {
        let at = chance.below(formation.len());
        let size = entries
            .iter()
            .find(|e| e.0 == formation[at].0)
            .map_or(1, |e| e.1.vehicles.len());
        claimed = formation[at].0.to_vec();
        vehicle = 1 + chance.below(size) as u8;
        direction = 1 + chance.below(2) as u8;
        match chance.below(40) {
            0 => vehicle = chance.pick(&[0, 32, 33, 255]),
            1 => direction = chance.pick(&[0, 3, 255]),
            2 => claimed = id(chance).to_vec(),
            3 => claimed = vec![0; 16],
            4 => vehicle = size as u8 + 1,
            5 => claimed.truncate(chance.below(16)),
            6 => claimed.push(1),
            _ => {}
        }
        if let Ok(id) = Id::try_from(claimed.as_slice()) {
            let _ = bench.claim(id, vehicle, direction);
        }
    }
    let fleet: Fleet = entries.iter().cloned().collect();
    let mut list: Vec<u8> = Vec::new();
    if chance.one_in(2) {
        list = confirmed(chance, &bench, &fleet).concat();
    }
    let mut coupled: Vec<u8> = Vec::new();
    for (id, facing) in &formation {
        coupled.extend(id);
        coupled.push(*facing);
    }
    if chance.one_in(60) {
        let cut = chance.below(17);
        coupled.truncate(coupled.len().saturating_sub(cut));
    }
    if chance.one_in(60) {
        list.extend(&[0x41; 15][..chance.below(16)]);
    }
    let mut book = model::book_of(&entries);
    if chance.one_in(60) {
        damage(chance, &mut book);
    }
    Plan {
        book,
        etb,
        formation: coupled,
        claimed,
        vehicle,
        direction,
        confirmed: list,
    }
}
