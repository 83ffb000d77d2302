//! Times the integrity check of this repository beside plain Rust, by turns in one process.
//! `tools/time-check` builds and runs it. Before any timing, all have to agree on the check of every length up to 4,224
//! bytes. It ends with 1 if a long message takes more than 1.3 times as long as plain Rust with a table.
use std::hint::black_box;
use std::time::Instant;

const LONGEST: usize = 4224;
const LENGTHS: [usize; 8] = [4, 8, 12, 20, 32, 64, 512, 4220];
const TURNS: usize = 31;
const LIMIT: f64 = 1.3;
const REVERSED: u32 = 0x82F6_3B78;

extern "C" {
    // the proved function, under a name of its own
    #[allow(improper_ctypes)]
    fn staignupe_check(bytes: &[u8]) -> u32;
}

fn ours(bytes: &[u8]) -> u32 {
    unsafe { staignupe_check(bytes) }
}

const fn eight_bits(mut x: u32) -> u32 {
    let mut i = 0;
    while i < 8 {
        x = (x >> 1) ^ (x % 2 * REVERSED);
        i += 1;
    }
    x
}

const fn entries() -> [u32; 256] {
    let mut table = [0; 256];
    let mut b = 0;
    while b < 256 {
        table[b] = eight_bits(b as u32);
        b += 1;
    }
    table
}

static TABLE: [u32; 256] = entries();

#[inline(never)]
fn rust_table(bytes: &[u8]) -> u32 {
    !bytes.iter().fold(!0, |x, b| (x >> 8) ^ TABLE[(x as u8 ^ b) as usize])
}

#[inline(never)]
fn rust_bits(bytes: &[u8]) -> u32 {
    !bytes.iter().fold(!0, |x, b| eight_bits(x ^ *b as u32))
}

/// Fewer checks of a long message than of a short one, so that every turn takes some milliseconds.
fn rounds(length: usize) -> usize {
    4_000_000 / (length + 20)
}

/// Nanoseconds of one check.
fn time(check: fn(&[u8]) -> u32, bytes: &[u8], rounds: usize) -> f64 {
    let begun = Instant::now();
    for _ in 0..rounds {
        black_box(black_box(check)(black_box(bytes)));
    }
    begun.elapsed().as_secs_f64() * 1e9 / rounds as f64
}

fn main() {
    let bytes: Vec<u8> = (0..LONGEST).map(|i| (i * i % 251) as u8).collect();
    for n in 0..=LONGEST {
        let right = rust_bits(&bytes[..n]);
        assert_eq!((ours(&bytes[..n]), rust_table(&bytes[..n])), (right, right), "the check of {n} bytes");
    }
    let checks: [fn(&[u8]) -> u32; 3] = [ours, rust_table, rust_bits];
    println!("ns a check, median of {TURNS} turns");
    println!(" bytes      ours  Rust, table  Rust, bits  ours / table");
    let mut ratio = 0.0;
    for n in LENGTHS {
        let mut times = [(); 3].map(|_| Vec::new());
        for _ in 0..TURNS {
            for (check, times) in checks.iter().zip(&mut times) {
                times.push(time(*check, &bytes[..n], rounds(n)));
            }
        }
        let [ours, table, bits] = times.map(|mut times| {
            times.sort_by(f64::total_cmp);
            times[TURNS / 2]
        });
        ratio = ours / table;
        println!("{n:6}  {ours:8.1}  {table:11.1}  {bits:10.1}  {ratio:12.2}");
    }
    if ratio > LIMIT {
        eprintln!("time-check: the longest takes more than {LIMIT} times as long as plain Rust with a table");
        std::process::exit(1);
    }
}
