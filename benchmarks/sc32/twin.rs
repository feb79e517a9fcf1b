// SC-32 in plain Rust: by four tables, as crates/sc32 has it, and by one table, byte by byte.
// Prints for each way the checksum of the input from seed 0 and how many microseconds it took.
use std::hint::black_box;
use std::io::Read;
use std::time::Instant;

type Table = [u32; 256];

// What so many steps make of each byte in the top eight bits.
const fn table(steps: u32) -> Table {
    let mut table = [0; 256];
    let mut byte = 0;
    while byte < 256 {
        let mut register = (byte as u32) << 24;
        let mut step = 0;
        while step < steps {
            let out = register >> 31;
            register = (register << 1) ^ if out == 1 { 0xF4AC_FB13 } else { 0 };
            step += 1;
        }
        table[byte] = register;
        byte += 1;
    }
    table
}

static STEPS_8: Table = table(8);
static STEPS_16: Table = table(16);
static STEPS_24: Table = table(24);
static STEPS_32: Table = table(32);

fn byte_step(register: u32, byte: u8) -> u32 {
    (register << 8) ^ STEPS_8[((register >> 24) as u8 ^ byte) as usize]
}

fn four_step(register: u32, b0: u8, b1: u8, b2: u8, b3: u8) -> u32 {
    let s0 = STEPS_32[((register >> 24) as u8 ^ b0) as usize];
    let s1 = STEPS_24[((register >> 16) as u8 ^ b1) as usize];
    let s2 = STEPS_16[((register >> 8) as u8 ^ b2) as usize];
    let s3 = STEPS_8[(register as u8 ^ b3) as usize];
    s0 ^ (s1 ^ (s2 ^ s3))
}

#[inline(never)]
fn by_one_table(seed: u32, bytes: &[u8]) -> u32 {
    let mut register = seed;
    for byte in bytes {
        register = byte_step(register, *byte);
    }
    register
}

#[inline(never)]
fn by_four_tables(seed: u32, bytes: &[u8]) -> u32 {
    let words = bytes.chunks_exact(4);
    let rest = words.remainder();
    let mut register = seed;
    for word in words {
        register = four_step(register, word[0], word[1], word[2], word[3]);
    }
    by_one_table(register, rest)
}

fn timed(name: &str, way: fn(u32, &[u8]) -> u32, bytes: &[u8]) {
    let start = Instant::now();
    let sum = black_box(way(black_box(0), black_box(bytes)));
    let took = start.elapsed().as_micros();
    println!("{name} {sum:08X} {took}");
}

fn main() -> std::io::Result<()> {
    let mut bytes = Vec::new();
    std::io::stdin().read_to_end(&mut bytes)?;
    timed("four", by_four_tables, &bytes);
    timed("one", by_one_table, &bytes);
    Ok(())
}
