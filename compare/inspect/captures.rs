// Captures to time the inspection on: `captures MEGABYTES FEWEST MOST`, records of so many bytes,
// one in sixteen refused. The same arguments give the same capture.

use std::io::{self, BufWriter, Write};

struct Rng(u64);

impl Rng {
    fn below(&mut self, bound: u64) -> u64 {
        self.0 ^= self.0 << 13;
        self.0 ^= self.0 >> 7;
        self.0 ^= self.0 << 17;
        self.0 % bound
    }
}

fn record(rng: &mut Rng, length: usize) -> Vec<u8> {
    let service = [0x05, 0x06, 0x07, 0x08, 0x09, 0x0A][rng.below(6) as usize];
    let service = [[2, service], [4, 0x20], [4, 0x21]][rng.below(3) as usize];
    let version = if rng.below(16) == 0 { 0x20 } else { 0x10 };
    let [high, low] = (length as u16).to_be_bytes();
    let mut record = vec![high, low, 6, version, service[0], service[1], high, low];
    record.resize(2 + length, 0xA5);
    record
}

fn main() -> io::Result<()> {
    let numbers: Vec<u64> = std::env::args().skip(1).map(|word| word.parse().unwrap()).collect();
    let [megabytes, fewest, most] = numbers[..] else { panic!("captures MEGABYTES FEWEST MOST") };
    let mut out = BufWriter::new(io::stdout().lock());
    let rng = &mut Rng(0x9E37_79B9_7F4A_7C15);
    out.write_all(b"KIP\0\x01")?;
    let mut written = 0;
    while written < megabytes * 1_000_000 {
        let length = fewest + rng.below(most - fewest + 1);
        out.write_all(&record(rng, length as usize))?;
        written += 2 + length;
    }
    out.flush()
}
