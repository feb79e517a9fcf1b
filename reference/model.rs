//! A second implementation of the rules in docs/RULES.md, in plain Rust. It shares no code with the
//! proved core and goes other ways where there is a choice: consists are looked up in maps, lists
//! grow, and the operational order is made consist by consist.

use std::collections::{BTreeMap, HashMap, HashSet};

pub type Id = [u8; 16];
pub type Name = [u8; 16];

/// A refusal: its number, its line (only of number 1) and its place.
#[derive(Clone, Copy, PartialEq, Eq, Debug)]
pub struct Refusal {
    pub number: u8,
    pub line: usize,
    pub place: usize,
}

fn refuse<T>(number: u8, place: usize) -> Result<T, Refusal> {
    Err(Refusal {
        number,
        line: 0,
        place,
    })
}

/// A consist: its counter, and its vehicles with their facings (1 direct, 2 inverse).
#[derive(Clone, PartialEq, Eq, Debug)]
pub struct Consist {
    pub counter: u32,
    pub vehicles: Vec<(Name, u8)>,
}

pub type Fleet = BTreeMap<Id, Consist>;

pub fn name_is_well_formed(name: &Name) -> bool {
    let used = name.iter().position(|b| *b == 0).unwrap_or(16);
    (1..=15).contains(&used)
        && name[..used].iter().all(|b| (0x20..=0x7e).contains(b))
        && name[used..].iter().all(|b| *b == 0)
}

/// The second entry, from 1, of the first that is repeated.
fn repeated<T: std::hash::Hash + Eq>(entries: impl Iterator<Item = T>) -> Option<usize> {
    let mut seen = HashSet::new();
    entries
        .enumerate()
        .find_map(|(i, e)| (!seen.insert(e)).then_some(i + 1))
}

pub fn compose_facings(a: u8, b: u8) -> u8 {
    match (a, b) {
        (0, _) | (_, 0) => 0,
        (a, b) if a == b => 1,
        _ => 2,
    }
}

pub fn sc32(seed: u32, bytes: &[u8]) -> u32 {
    let mut register = seed;
    for byte in bytes {
        register ^= u32::from(*byte) << 24;
        for _ in 0..8 {
            let out = register >> 31;
            register <<= 1;
            if out == 1 {
                register ^= 0xF4AC_FB13;
            }
        }
    }
    register
}

// Books.

fn be16(bytes: &[u8]) -> usize {
    usize::from(bytes[0]) * 256 + usize::from(bytes[1])
}

/// The entries of a book in their order, if it meets the checks.
pub fn open(book: &[u8]) -> Result<Vec<(Id, Consist)>, Refusal> {
    if book.len() < 4 || book[0] != 1 || book[1] != 0 {
        return refuse(2, 0);
    }
    let count = be16(&book[2..4]);
    if count > 200 || book.len() < 6 + 21 * count {
        return refuse(3, 0);
    }
    let total_at = 4 + 21 * count;
    let total = be16(&book[total_at..total_at + 2]);
    if total > 2000 || book.len() != 6 + 21 * count + 17 * total {
        return refuse(4, 0);
    }
    let rows: Vec<&[u8]> = book[4..total_at].chunks(21).collect();
    let seats: Vec<&[u8]> = book[total_at + 2..].chunks(17).collect();
    let mut before = [0u8; 16];
    for (i, row) in rows.iter().enumerate() {
        let id: Id = row[..16].try_into().unwrap();
        if id <= before {
            return refuse(5, i + 1);
        }
        before = id;
    }
    if let Some(i) = rows.iter().position(|row| row[16..20] == [0; 4]) {
        return refuse(6, i + 1);
    }
    if let Some(i) = rows.iter().position(|row| row[20] == 0 || row[20] > 32) {
        return refuse(7, i + 1);
    }
    if rows.iter().map(|row| usize::from(row[20])).sum::<usize>() != total {
        return refuse(8, 0);
    }
    if let Some(i) = seats
        .iter()
        .position(|seat| !name_is_well_formed(&seat[..16].try_into().unwrap()))
    {
        return refuse(9, i + 1);
    }
    if let Some(i) = seats.iter().position(|seat| seat[16] != 1 && seat[16] != 2) {
        return refuse(10, i + 1);
    }
    let mut fleet = Vec::new();
    let mut from = 0;
    for row in &rows {
        let size = usize::from(row[20]);
        let own = &seats[from..from + size];
        if let Some(k) = repeated(own.iter().map(|seat| &seat[..16])) {
            return refuse(11, from + k);
        }
        from += size;
        fleet.push((
            row[..16].try_into().unwrap(),
            Consist {
                counter: u32::from_be_bytes(row[16..20].try_into().unwrap()),
                vehicles: own
                    .iter()
                    .map(|seat| (seat[..16].try_into().unwrap(), seat[16]))
                    .collect(),
            },
        ));
    }
    Ok(fleet)
}

pub fn book_of(entries: &[(Id, Consist)]) -> Vec<u8> {
    let mut book = vec![1, 0];
    book.extend((entries.len() as u16).to_be_bytes());
    for (id, consist) in entries {
        book.extend(id);
        book.extend(consist.counter.to_be_bytes());
        book.push(consist.vehicles.len() as u8);
    }
    let total: usize = entries.iter().map(|(_, c)| c.vehicles.len()).sum();
    book.extend((total as u16).to_be_bytes());
    for (_, consist) in entries {
        for (name, facing) in &consist.vehicles {
            book.extend(name);
            book.push(*facing);
        }
    }
    book
}

// Fleet lists.

struct Line<'a> {
    text: &'a [u8],
    at: usize,
}

/// The place of the first byte, from 0, with which no line can begin.
type Broken = usize;

impl Line<'_> {
    fn peek(&self) -> Option<u8> {
        self.text.get(self.at).copied()
    }

    fn take(&mut self, ok: impl Fn(u8) -> bool) -> Result<u8, Broken> {
        match self.peek() {
            Some(b) if ok(b) => {
                self.at += 1;
                Ok(b)
            }
            _ => Err(self.at),
        }
    }

    fn identity(&mut self) -> Result<Id, Broken> {
        let mut id = [0; 16];
        for byte in &mut id {
            for _ in 0..2 {
                let digit = self.take(|b| matches!(b, b'0'..=b'9' | b'a'..=b'f'))?;
                *byte = *byte << 4 | (digit as char).to_digit(16).unwrap() as u8;
            }
        }
        Ok(id)
    }

    fn counter(&mut self) -> Result<u32, Broken> {
        let mut value = u64::from(self.take(|b| matches!(b, b'1'..=b'9'))? - b'0');
        while let Some(b'0'..=b'9') = self.peek() {
            let more = value * 10 + u64::from(self.peek().unwrap() - b'0');
            if more > u64::from(u32::MAX) {
                return Err(self.at);
            }
            value = more;
            self.at += 1;
        }
        Ok(value as u32)
    }

    fn name(&mut self) -> Result<Name, Broken> {
        self.take(|b| b == b'"')?;
        let mut held = Vec::new();
        loop {
            match self.peek() {
                Some(b'"') if !held.is_empty() => {
                    self.at += 1;
                    let mut name = [0; 16];
                    name[..held.len()].copy_from_slice(&held);
                    return Ok(name);
                }
                Some(b'"') | None => return Err(self.at),
                Some(_) if held.len() == 15 => return Err(self.at),
                Some(b'\\') => {
                    self.at += 1;
                    held.push(self.take(|b| b == b'"' || b == b'\\')?);
                }
                Some(_) => held.push(self.take(|b| (0x20..=0x7e).contains(&b))?),
            }
        }
    }

    fn vehicles(&mut self) -> Result<Vec<(Name, u8)>, Broken> {
        let mut vehicles = Vec::new();
        self.take(|b| b == b' ')?;
        loop {
            let name = self.name()?;
            let sign = self.take(|b| b == b'+' || b == b'-')?;
            vehicles.push((name, if sign == b'+' { 1 } else { 2 }));
            let room = vehicles.len() < 32;
            if self.take(|b| b == b'\n' || b == b' ' && room)? == b'\n' {
                return Ok(vehicles);
            }
        }
    }

    fn read(&mut self) -> Result<(Id, Consist), Broken> {
        let id = self.identity()?;
        self.take(|b| b == b' ')?;
        let counter = self.counter()?;
        let vehicles = self.vehicles()?;
        Ok((id, Consist { counter, vehicles }))
    }
}

fn lines_of(text: &[u8]) -> Result<Vec<(Id, Consist)>, Refusal> {
    let mut lines = Vec::new();
    let mut at = 0;
    while at < text.len() {
        let mut line = Line {
            text: &text[at..],
            at: 0,
        };
        match line.read() {
            Ok(entry) => lines.push(entry),
            Err(place) => {
                return Err(Refusal {
                    number: 1,
                    line: lines.len() + 1,
                    place: place + 1,
                });
            }
        }
        at += line.at;
    }
    Ok(lines)
}

/// The book of a list, for a buffer of so many bytes.
pub fn import(text: &[u8], room: usize) -> Result<Vec<u8>, Refusal> {
    let lines = lines_of(text)?;
    if lines.len() > 200 {
        return refuse(3, 0);
    }
    if lines.iter().map(|(_, c)| c.vehicles.len()).sum::<usize>() > 2000 {
        return refuse(4, 0);
    }
    let mut before = [0; 16];
    for (i, (id, _)) in lines.iter().enumerate() {
        if *id <= before {
            return refuse(5, i + 1);
        }
        before = *id;
    }
    for (i, (_, consist)) in lines.iter().enumerate() {
        if repeated(consist.vehicles.iter().map(|v| v.0)).is_some() {
            return refuse(11, i + 1);
        }
    }
    let book = book_of(&lines);
    if book.len() > room {
        return refuse(24, book.len());
    }
    Ok(book)
}

fn quoted(name: &Name) -> String {
    let mut text = String::from("\"");
    for b in name.iter().take_while(|b| **b != 0) {
        if *b == b'"' || *b == b'\\' {
            text.push('\\');
        }
        text.push(*b as char);
    }
    text + "\""
}

/// The text of entries, a line each.
pub fn text_of(entries: &[(Id, Consist)]) -> String {
    let mut text = String::new();
    for (id, consist) in entries {
        for byte in id {
            text += &format!("{byte:02x}");
        }
        text += &format!(" {}", consist.counter);
        for (name, facing) in &consist.vehicles {
            text += &format!(" {}{}", quoted(name), if *facing == 1 { '+' } else { '-' });
        }
        text.push('\n');
    }
    text
}

/// The list of a book and how many lines it has, for a buffer of so many bytes.
pub fn export(book: &[u8], room: usize) -> Result<(Vec<u8>, usize), Refusal> {
    let entries = open(book)?;
    let text = text_of(&entries).into_bytes();
    if text.len() > room {
        return refuse(24, text.len());
    }
    Ok((text, entries.len()))
}

// Rosters.

#[derive(Clone, Default)]
pub struct Roster {
    pub fleet: Fleet,
}

impl Roster {
    pub fn announce(
        &mut self,
        id: Id,
        counter: u32,
        vehicles: &[(Name, u8)],
    ) -> Result<(), Refusal> {
        if id == [0; 16] {
            return refuse(5, 0);
        }
        if counter == 0 {
            return refuse(6, 0);
        }
        if vehicles.is_empty() || vehicles.len() > 32 {
            return refuse(7, 0);
        }
        if let Some(i) = vehicles.iter().position(|v| !name_is_well_formed(&v.0)) {
            return refuse(9, i + 1);
        }
        if let Some(i) = vehicles.iter().position(|v| v.1 != 1 && v.1 != 2) {
            return refuse(10, i + 1);
        }
        if let Some(i) = repeated(vehicles.iter().map(|v| v.0)) {
            return refuse(11, i);
        }
        if self.fleet.len() == 63 && !self.fleet.contains_key(&id) {
            return refuse(16, 0);
        }
        self.fleet.insert(
            id,
            Consist {
                counter,
                vehicles: vehicles.to_vec(),
            },
        );
        Ok(())
    }

    pub fn forget(&mut self, id: &Id) -> Result<(), Refusal> {
        if *id == [0; 16] {
            return refuse(5, 0);
        }
        match self.fleet.remove(id) {
            Some(_) => Ok(()),
            None => refuse(13, 0),
        }
    }
}

// The bench.

#[derive(Clone, Default)]
pub struct Bench {
    pub etb: u32,
    pub formation: Vec<(Id, u8)>,
    pub claims: HashMap<Id, (u8, u8)>,
    pub confirmed: Option<Vec<Name>>,
}

impl Bench {
    fn coupled(&self, id: &Id) -> Result<u8, Refusal> {
        if *id == [0; 16] {
            return refuse(5, 0);
        }
        if self.formation.is_empty() {
            return refuse(12, 0);
        }
        match self.formation.iter().find(|e| e.0 == *id) {
            Some(entry) => Ok(entry.1),
            None => refuse(13, 0),
        }
    }

    pub fn inaugurate(&mut self, etb: u32, formation: &[(Id, u8)]) -> Result<(), Refusal> {
        if let Some(i) = formation.iter().position(|e| e.0 == [0; 16]) {
            return refuse(5, i + 1);
        }
        if etb == 0 {
            return refuse(6, 0);
        }
        if formation.is_empty() || formation.len() > 63 {
            return refuse(7, 0);
        }
        if let Some(i) = formation.iter().position(|e| e.1 != 1 && e.1 != 2) {
            return refuse(10, i + 1);
        }
        if let Some(i) = repeated(formation.iter().map(|e| e.0)) {
            return refuse(11, i);
        }
        *self = Bench {
            etb,
            formation: formation.to_vec(),
            claims: HashMap::new(),
            confirmed: None,
        };
        Ok(())
    }

    pub fn claim(&mut self, id: Id, vehicle: u8, direction: u8) -> Result<(), Refusal> {
        self.coupled(&id)?;
        if !(1..=32).contains(&vehicle) || !(1..=2).contains(&direction) {
            return refuse(14, 0);
        }
        self.claims.insert(id, (vehicle, direction));
        Ok(())
    }

    pub fn yield_claim(&mut self, id: Id) -> Result<(), Refusal> {
        self.coupled(&id)?;
        match self.claims.remove(&id) {
            Some(_) => Ok(()),
            None => refuse(15, 0),
        }
    }

    pub fn confirm(&mut self, names: &[Name]) -> Result<(), Refusal> {
        if names.is_empty() || names.len() > 63 {
            return refuse(7, 0);
        }
        if let Some(i) = names.iter().position(|n| !name_is_well_formed(n)) {
            return refuse(9, i + 1);
        }
        if let Some(i) = repeated(names.iter()) {
            return refuse(11, i);
        }
        if self.formation.is_empty() {
            return refuse(12, 0);
        }
        self.confirmed = Some(names.to_vec());
        Ok(())
    }

    pub fn withdraw(&mut self) -> Result<(), Refusal> {
        if self.formation.is_empty() {
            return refuse(12, 0);
        }
        match self.confirmed.take() {
            Some(_) => Ok(()),
            None => refuse(15, 0),
        }
    }
}

// Composing.

/// A vehicle from the head: the place of its consist in the formation (none of an inserted one), its
/// name, facing, leading direction and train number.
struct Coach {
    consist: Option<usize>,
    name: Name,
    facing: u8,
    lead: u8,
    number: u8,
}

/// The vehicles from the head, consist by consist.
fn coaches(bench: &Bench, consists: &[&Consist], orientation: u8) -> Vec<Coach> {
    let mut first_number = Vec::new();
    let mut next = 1;
    for consist in consists {
        first_number.push(next);
        next += consist.vehicles.len();
    }
    let mut order: Vec<usize> = (0..consists.len()).collect();
    if orientation == 2 {
        order.reverse();
    }
    let mut train = Vec::new();
    for at in order {
        let (id, facing) = bench.formation[at];
        let operational = compose_facings(facing, orientation);
        let size = consists[at].vehicles.len();
        let mut block: Vec<Coach> = Vec::new();
        for (k, (name, own)) in consists[at].vehicles.iter().enumerate() {
            let along = if facing == 1 { k } else { size - 1 - k };
            let lead = match bench.claims.get(&id) {
                Some((vehicle, direction)) if usize::from(*vehicle) == k + 1 => *direction,
                _ => 0,
            };
            block.push(Coach {
                consist: Some(at),
                name: *name,
                facing: compose_facings(*own, operational),
                lead,
                number: (first_number[at] + along) as u8,
            });
        }
        if operational == 2 {
            block.reverse();
        }
        train.append(&mut block);
    }
    train
}

/// The train in the order of a confirmed list, or the refusal 22 or 23.
fn reordered(train: Vec<Coach>, list: &[Name]) -> Result<Vec<Coach>, Refusal> {
    let known: HashSet<Name> = train.iter().map(|c| c.name).collect();
    let struck: Vec<Name> = list.iter().filter(|n| known.contains(*n)).copied().collect();
    if struck != train.iter().map(|c| c.name).collect::<Vec<_>>() {
        return refuse(22, 0);
    }
    let mut rest = train.into_iter();
    let mut order = Vec::new();
    for name in list {
        if known.contains(name) {
            order.push(rest.next().unwrap());
        } else {
            order.push(Coach {
                consist: None,
                name: *name,
                facing: 0,
                lead: 0,
                number: 0,
            });
        }
    }
    for i in 0..order.len() {
        if order[i].consist.is_none() {
            let before: HashSet<usize> = order[..i].iter().filter_map(|c| c.consist).collect();
            if order[i..]
                .iter()
                .filter_map(|c| c.consist)
                .any(|c| before.contains(&c))
            {
                return refuse(23, 0);
            }
        }
    }
    Ok(order)
}

pub fn compose(bench: &Bench, fleet: &Fleet, room: usize) -> Result<Vec<u8>, Refusal> {
    if bench.formation.is_empty() {
        return refuse(12, 0);
    }
    let mut consists = Vec::new();
    for (i, (id, _)) in bench.formation.iter().enumerate() {
        match fleet.get(id) {
            Some(consist) => consists.push(consist),
            None => return refuse(17, i + 1),
        }
    }
    if consists.iter().map(|c| c.vehicles.len()).sum::<usize>() > 63 {
        return refuse(18, 0);
    }
    check_names(bench, &consists)?;
    if bench.claims.len() > 1 {
        return refuse(20, 0);
    }
    let mut orientation = 1;
    for (i, (id, facing)) in bench.formation.iter().enumerate() {
        if let Some((vehicle, direction)) = bench.claims.get(id) {
            if usize::from(*vehicle) > consists[i].vehicles.len() {
                return refuse(21, i + 1);
            }
            orientation = compose_facings(*direction, *facing);
        }
    }
    let mut train = coaches(bench, &consists, orientation);
    if let Some(list) = &bench.confirmed {
        train = reordered(train, list)?;
    }
    let bytes = written(bench, &consists, orientation, &train);
    if bytes.len() > room {
        return refuse(24, bytes.len());
    }
    Ok(bytes)
}

/// No name stands in two consists; the place is that of the second, along the train.
fn check_names(bench: &Bench, consists: &[&Consist]) -> Result<(), Refusal> {
    let mut seen = HashSet::new();
    for (i, consist) in consists.iter().enumerate() {
        let mut names: Vec<Name> = consist.vehicles.iter().map(|v| v.0).collect();
        if bench.formation[i].1 == 2 {
            names.reverse();
        }
        for name in names {
            if !seen.insert(name) {
                return refuse(19, i + 1);
            }
        }
    }
    Ok(())
}

fn written(bench: &Bench, consists: &[&Consist], orientation: u8, train: &[Coach]) -> Vec<u8> {
    let mut first = vec![consists.len() as u8];
    for (i, (id, facing)) in bench.formation.iter().enumerate() {
        first.extend(id);
        first.extend(consists[i].counter.to_be_bytes());
        first.extend([i as u8 + 1, *facing, 0, 0]);
    }
    let mut groups: Vec<Option<usize>> = Vec::new();
    let mut vehicles = vec![train.len() as u8];
    for (i, coach) in train.iter().enumerate() {
        if groups.last() != Some(&coach.consist) {
            groups.push(coach.consist);
        }
        vehicles.extend(coach.name);
        let mark = if coach.lead == 0 { 1 } else { 2 };
        let group = groups.len() as u8;
        vehicles.extend([i as u8 + 1, mark, coach.lead, coach.number]);
        vehicles.extend([coach.facing, group, 0, 0]);
    }
    let mut rest = vec![groups.len() as u8];
    for (i, group) in groups.iter().enumerate() {
        let number = i as u8 + 1;
        match group {
            Some(at) => {
                let (id, facing) = bench.formation[*at];
                rest.extend(id);
                rest.extend([number, compose_facings(facing, orientation), *at as u8 + 1, 0]);
            }
            None => {
                rest.extend([0; 16]);
                rest.extend([number, 0, 0, 0]);
            }
        }
    }
    rest.extend(vehicles);
    let train_counter = sc32(bench.etb, &first);
    let status = if bench.confirmed.is_some() { 2 } else { 1 };
    let mut bytes = vec![1, 0, orientation, status];
    bytes.extend(bench.etb.to_be_bytes());
    bytes.extend(train_counter.to_be_bytes());
    bytes.extend(sc32(train_counter, &rest).to_be_bytes());
    bytes.extend(first);
    bytes.extend(rest);
    bytes
}
