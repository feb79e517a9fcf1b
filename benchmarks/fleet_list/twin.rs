// Fleet lists in plain Rust: a list into a book, and a book into a list.
// Prints how long the book of the list in the input is, and the list of that book, and on the second stream
// how many microseconds 200 imports and 200 exports took.
use std::hint::black_box;
use std::io::Read;
use std::time::Instant;

const TIMES: usize = 200;
const LINES: usize = 200;
const VEHICLES: usize = 2000;
const LONGEST: usize = 32;
const NAME: usize = 15;
const FRAME: usize = 6;
const CONSIST: usize = 21;
const VEHICLE: usize = 17;
const LIST: usize = 76800;

#[derive(Clone, Copy, Debug, PartialEq)]
enum Facing {
    Direct,
    Inverse,
}

#[derive(Debug)]
struct Head {
    identity: [u8; 16],
    counter: u32,
    count: u8,
}

#[derive(Debug)]
struct Vehicle {
    name: [u8; 16],
    facing: Facing,
}

#[derive(Clone, Copy, Debug, PartialEq)]
#[allow(dead_code)]
enum Refusal {
    Form { line: usize, byte: usize },
    ConsistCount,
    VehicleCount,
    VehicleSum,
    BookHead,
    IdentityOrder(usize),
    ZeroCounter(usize),
    EntryCount(usize),
    NameForm(usize),
    UnknownFacing(usize),
    Repeated(usize),
    BufferShort(usize),
}

// A line of the text, and the place in it.
struct Reader<'a> {
    text: &'a [u8],
    at: usize,
    line: usize,
}

impl Reader<'_> {
    fn broken(&self) -> Refusal {
        Refusal::Form { line: self.line, byte: self.at + 1 }
    }

    fn peek(&self) -> Result<u8, Refusal> {
        self.text.get(self.at).copied().ok_or_else(|| self.broken())
    }

    fn expect(&mut self, byte: u8) -> Result<(), Refusal> {
        if self.peek()? != byte {
            return Err(self.broken());
        }
        self.at += 1;
        Ok(())
    }

    fn digit(&mut self) -> Result<u8, Refusal> {
        let value = match self.peek()? {
            b @ b'0'..=b'9' => b - b'0',
            b @ b'a'..=b'f' => b - b'a' + 10,
            _ => return Err(self.broken()),
        };
        self.at += 1;
        Ok(value)
    }

    fn identity(&mut self) -> Result<[u8; 16], Refusal> {
        let mut bytes = [0; 16];
        for b in &mut bytes {
            *b = self.digit()? << 4 | self.digit()?;
        }
        self.expect(b' ')?;
        Ok(bytes)
    }

    fn counter(&mut self) -> Result<u32, Refusal> {
        let mut value: u32 = 0;
        loop {
            match self.peek()? {
                b' ' if value > 0 => break,
                b @ b'0'..=b'9' => {
                    value = value
                        .checked_mul(10)
                        .and_then(|v| v.checked_add(u32::from(b - b'0')))
                        .filter(|v| *v > 0)
                        .ok_or_else(|| self.broken())?;
                }
                _ => return Err(self.broken()),
            }
            self.at += 1;
        }
        self.at += 1;
        Ok(value)
    }

    fn name(&mut self) -> Result<[u8; 16], Refusal> {
        self.expect(b'"')?;
        let mut name = [0; 16];
        let mut len = 0;
        loop {
            match self.peek()? {
                b'"' if len > 0 => break,
                b'\\' if len < NAME => {
                    self.at += 1;
                    match self.peek()? {
                        b @ (b'"' | b'\\') => name[len] = b,
                        _ => return Err(self.broken()),
                    }
                }
                b @ b' '..=b'~' if len < NAME && b != b'"' => name[len] = b,
                _ => return Err(self.broken()),
            }
            len += 1;
            self.at += 1;
        }
        self.at += 1;
        Ok(name)
    }

    fn vehicle(&mut self) -> Result<Vehicle, Refusal> {
        let name = self.name()?;
        let facing = match self.peek()? {
            b'+' => Facing::Direct,
            b'-' => Facing::Inverse,
            _ => return Err(self.broken()),
        };
        self.at += 1;
        Ok(Vehicle { name, facing })
    }

    // The line, its vehicles behind the others.
    fn head(&mut self, vehicles: &mut Vec<Vehicle>) -> Result<Head, Refusal> {
        let identity = self.identity()?;
        let counter = self.counter()?;
        vehicles.push(self.vehicle()?);
        let mut count = 1;
        loop {
            match self.peek()? {
                b'\n' => break,
                b' ' if count < LONGEST => {
                    self.at += 1;
                    vehicles.push(self.vehicle()?);
                    count += 1;
                }
                _ => return Err(self.broken()),
            }
        }
        self.at += 1;
        Ok(Head { identity, counter, count: count as u8 })
    }
}

fn repeated(vehicles: &[Vehicle]) -> Option<usize> {
    (1..vehicles.len()).find(|&k| vehicles[..k].iter().any(|v| v.name == vehicles[k].name))
}

fn identities_rise(heads: &[Head]) -> Result<(), Refusal> {
    let mut prior = [0; 16];
    for (i, head) in heads.iter().enumerate() {
        if head.identity <= prior {
            return Err(Refusal::IdentityOrder(i + 1));
        }
        prior = head.identity;
    }
    Ok(())
}

fn put(out: &mut [u8], at: &mut usize, bytes: &[u8]) {
    out[*at..*at + bytes.len()].copy_from_slice(bytes);
    *at += bytes.len();
}

#[inline(never)]
fn import_list(text: &[u8], out: &mut [u8]) -> Result<usize, Refusal> {
    let mut heads = Vec::with_capacity(LINES);
    let mut vehicles = Vec::with_capacity(VEHICLES);
    let mut rest = text;
    let mut line = 1;
    while !rest.is_empty() {
        let mut reader = Reader { text: rest, at: 0, line };
        heads.push(reader.head(&mut vehicles)?);
        rest = &rest[reader.at..];
        line += 1;
    }
    if heads.len() > LINES {
        return Err(Refusal::ConsistCount);
    }
    if vehicles.len() > VEHICLES {
        return Err(Refusal::VehicleCount);
    }
    identities_rise(&heads)?;
    let mut from = 0;
    for (i, head) in heads.iter().enumerate() {
        let end = from + usize::from(head.count);
        if repeated(&vehicles[from..end]).is_some() {
            return Err(Refusal::Repeated(i + 1));
        }
        from = end;
    }
    let need = FRAME + CONSIST * heads.len() + VEHICLE * vehicles.len();
    if out.len() < need {
        return Err(Refusal::BufferShort(need));
    }
    let mut at = 0;
    put(out, &mut at, &[1, 0]);
    put(out, &mut at, &(heads.len() as u16).to_be_bytes());
    for head in &heads {
        put(out, &mut at, &head.identity);
        put(out, &mut at, &head.counter.to_be_bytes());
        put(out, &mut at, &[head.count]);
    }
    put(out, &mut at, &(vehicles.len() as u16).to_be_bytes());
    for vehicle in &vehicles {
        put(out, &mut at, &vehicle.name);
        put(out, &mut at, &[if vehicle.facing == Facing::Direct { 1 } else { 2 }]);
    }
    Ok(at)
}

fn name_len(name: &[u8]) -> usize {
    name.iter().position(|b| *b == 0).unwrap_or(name.len())
}

fn well_formed(name: &[u8]) -> bool {
    let n = name_len(name);
    (1..=NAME).contains(&n)
        && name[..n].iter().all(|b| (b' '..=b'~').contains(b))
        && name[n..].iter().all(|b| *b == 0)
}

// The entries of a book, where it is one.
fn open(book: &[u8]) -> Result<(Vec<Head>, Vec<Vehicle>), Refusal> {
    let [1, 0, high, low, rest @ ..] = book else {
        return Err(Refusal::BookHead);
    };
    let lines = usize::from(u16::from_be_bytes([*high, *low]));
    if lines > LINES || rest.len() < lines * CONSIST + 2 {
        return Err(Refusal::ConsistCount);
    }
    let (entries, tail) = rest.split_at(lines * CONSIST);
    let total = usize::from(u16::from_be_bytes([tail[0], tail[1]]));
    let table = &tail[2..];
    if total > VEHICLES || table.len() != total * VEHICLE {
        return Err(Refusal::VehicleCount);
    }
    let heads: Vec<Head> = entries
        .chunks_exact(CONSIST)
        .map(|row| Head {
            identity: row[..16].try_into().unwrap(),
            counter: u32::from_be_bytes(row[16..20].try_into().unwrap()),
            count: row[20],
        })
        .collect();
    identities_rise(&heads)?;
    if let Some(i) = heads.iter().position(|h| h.counter == 0) {
        return Err(Refusal::ZeroCounter(i + 1));
    }
    if let Some(i) = heads.iter().position(|h| h.count == 0 || usize::from(h.count) > LONGEST) {
        return Err(Refusal::EntryCount(i + 1));
    }
    if heads.iter().map(|h| usize::from(h.count)).sum::<usize>() != total {
        return Err(Refusal::VehicleSum);
    }
    let rows = table.chunks_exact(VEHICLE);
    if let Some(i) = rows.clone().position(|row| !well_formed(&row[..16])) {
        return Err(Refusal::NameForm(i + 1));
    }
    let mut vehicles = Vec::with_capacity(total);
    for (i, row) in rows.enumerate() {
        let facing = match row[16] {
            1 => Facing::Direct,
            2 => Facing::Inverse,
            _ => return Err(Refusal::UnknownFacing(i + 1)),
        };
        vehicles.push(Vehicle { name: row[..16].try_into().unwrap(), facing });
    }
    let mut from = 0;
    for head in &heads {
        let end = from + usize::from(head.count);
        if let Some(k) = repeated(&vehicles[from..end]) {
            return Err(Refusal::Repeated(from + k + 1));
        }
        from = end;
    }
    Ok((heads, vehicles))
}

fn is_escaped(byte: u8) -> bool {
    byte == b'"' || byte == b'\\'
}

fn decimal_size(n: u32) -> usize {
    n.checked_ilog10().unwrap_or(0) as usize + 1
}

fn list_size(heads: &[Head], vehicles: &[Vehicle]) -> usize {
    let lines: usize = heads.iter().map(|h| 34 + decimal_size(h.counter)).sum();
    let all: usize = vehicles
        .iter()
        .map(|v| {
            let name = &v.name[..name_len(&v.name)];
            4 + name.len() + name.iter().filter(|b| is_escaped(**b)).count()
        })
        .sum();
    lines + all
}

fn put_one(out: &mut [u8], at: &mut usize, byte: u8) {
    out[*at] = byte;
    *at += 1;
}

fn put_hex(out: &mut [u8], at: &mut usize, bytes: &[u8; 16]) {
    const DIGITS: &[u8; 16] = b"0123456789abcdef";
    for b in bytes {
        put_one(out, at, DIGITS[usize::from(b >> 4)]);
        put_one(out, at, DIGITS[usize::from(b & 15)]);
    }
}

fn put_decimal(out: &mut [u8], at: &mut usize, mut n: u32) {
    let mut digits = [0; 10];
    let mut from = digits.len();
    loop {
        from -= 1;
        digits[from] = b'0' + (n % 10) as u8;
        n /= 10;
        if n == 0 {
            break;
        }
    }
    put(out, at, &digits[from..]);
}

fn put_vehicle(out: &mut [u8], at: &mut usize, vehicle: &Vehicle) {
    put(out, at, b" \"");
    for &b in &vehicle.name[..name_len(&vehicle.name)] {
        if is_escaped(b) {
            put_one(out, at, b'\\');
        }
        put_one(out, at, b);
    }
    put_one(out, at, b'"');
    put_one(out, at, if vehicle.facing == Facing::Direct { b'+' } else { b'-' });
}

#[inline(never)]
fn export_book(book: &[u8], out: &mut [u8]) -> Result<(usize, usize), Refusal> {
    let (heads, vehicles) = open(book)?;
    let need = list_size(&heads, &vehicles);
    if out.len() < need {
        return Err(Refusal::BufferShort(need));
    }
    let mut at = 0;
    let mut from = 0;
    for head in &heads {
        put_hex(out, &mut at, &head.identity);
        put_one(out, &mut at, b' ');
        put_decimal(out, &mut at, head.counter);
        let end = from + usize::from(head.count);
        for vehicle in &vehicles[from..end] {
            put_vehicle(out, &mut at, vehicle);
        }
        put_one(out, &mut at, b'\n');
        from = end;
    }
    Ok((at, heads.len()))
}

fn main() -> std::io::Result<()> {
    let mut text = Vec::new();
    std::io::stdin().read_to_end(&mut text)?;
    let mut book = vec![0; FRAME + CONSIST * LINES + VEHICLE * VEHICLES];
    let mut list = vec![0; LIST];

    let mut imported = import_list(&text, &mut book);
    let start = Instant::now();
    for _ in 0..TIMES {
        imported = black_box(import_list(black_box(&text), black_box(&mut book)));
    }
    let import_took = start.elapsed().as_micros();
    let Ok(length) = imported else {
        println!("refused");
        return Ok(());
    };
    println!("book {length}");

    let mut exported = export_book(&book[..length], &mut list);
    let start = Instant::now();
    for _ in 0..TIMES {
        exported = black_box(export_book(black_box(&book[..length]), black_box(&mut list)));
    }
    let export_took = start.elapsed().as_micros();
    let Ok((bytes, _)) = exported else {
        println!("refused");
        return Ok(());
    };
    eprintln!("{import_took} {export_took}");
    println!("list {bytes}");
    if list[..bytes] != text[..] {
        println!("the list came back altered");
    }
    Ok(())
}
