// The inspection program tuned by hand: large reads into one buffer, records judged where they
// stand, digits written without formatting.

mod frame;

use std::io::{self, Read, Write};

const INPUT: usize = 131_072;
const OUTPUT: usize = 65_536;
/// No line is longer.
const LINE: usize = 64;

fn decimal(out: &mut Vec<u8>, mut number: u64) {
    let mut digits = [0; 20];
    let mut start = 20;
    loop {
        start -= 1;
        digits[start] = b'0' + (number % 10) as u8;
        number /= 10;
        if number == 0 {
            break;
        }
    }
    out.extend_from_slice(&digits[start..]);
}

fn hex(out: &mut Vec<u8>, number: u16) {
    for shift in [12, 8, 4, 0] {
        out.push(b"0123456789ABCDEF"[usize::from(number >> shift & 15)]);
    }
}

fn line(out: &mut Vec<u8>, count: u64, record: &[u8]) {
    decimal(out, count);
    match frame::judge(record) {
        Ok((service, total)) => {
            out.push(b' ');
            hex(out, service);
            out.push(b' ');
            decimal(out, total.into());
        }
        Err(number) => {
            out.extend_from_slice(b" refused ");
            decimal(out, number.into());
        }
    }
    out.push(b'\n');
}

/// Judges the whole records of the input, and gives where they end.
fn scan(input: &[u8], count: &mut u64, out: &mut Vec<u8>, to: &mut impl Write) -> io::Result<usize> {
    let mut at = 0;
    while let Some(length) = input.get(at..at + 2) {
        let end = at + 2 + usize::from(u16::from_be_bytes([length[0], length[1]]));
        let Some(record) = input.get(at + 2..end) else { break };
        if out.len() + LINE > OUTPUT {
            to.write_all(out)?;
            out.clear();
        }
        *count += 1;
        line(out, *count, record);
        at = end;
    }
    Ok(at)
}

fn main() -> io::Result<()> {
    let (mut from, mut to) = (io::stdin().lock(), io::stdout().lock());
    let mut start = [0; 5];
    if from.read_exact(&mut start).is_err() || start != *b"KIP\0\x01" {
        return to.write_all(b"not KIP 1\n");
    }
    let mut input = vec![0; INPUT];
    let mut out = Vec::with_capacity(OUTPUT);
    out.extend_from_slice(b"KIP 1\n");
    let (mut have, mut count) = (0, 0);
    loop {
        let read = from.read(&mut input[have..])?;
        have += read;
        let at = scan(&input[..have], &mut count, &mut out, &mut to)?;
        input.copy_within(at..have, 0);
        have -= at;
        if read == 0 {
            break;
        }
    }
    if have > 0 {
        out.extend_from_slice(b"cut\n");
    }
    out.extend_from_slice(b"records ");
    decimal(&mut out, count);
    out.push(b'\n');
    to.write_all(&out)
}
