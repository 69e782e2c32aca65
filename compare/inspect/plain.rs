// The inspection program as one writes it at first: BufReader, BufWriter, writeln.

mod frame;

use std::io::{self, BufReader, BufWriter, Read, Write};

/// Fills the buffer as far as the input goes, and gives how far that was.
fn fill(input: &mut impl Read, buffer: &mut [u8]) -> io::Result<usize> {
    let mut filled = 0;
    while filled < buffer.len() {
        match input.read(&mut buffer[filled..])? {
            0 => break,
            count => filled += count,
        }
    }
    Ok(filled)
}

fn main() -> io::Result<()> {
    let mut input = BufReader::new(io::stdin().lock());
    let mut out = BufWriter::new(io::stdout().lock());
    let mut start = [0; 5];
    if fill(&mut input, &mut start)? < 5 || start != *b"KIP\0\x01" {
        return writeln!(out, "not KIP 1");
    }
    writeln!(out, "KIP 1")?;
    let mut record = vec![0; 65_535];
    let mut count = 0u64;
    loop {
        let mut length = [0; 2];
        let got = fill(&mut input, &mut length)?;
        if got == 0 {
            break;
        }
        let length = usize::from(u16::from_be_bytes(length));
        if got < 2 || fill(&mut input, &mut record[..length])? < length {
            writeln!(out, "cut")?;
            break;
        }
        count += 1;
        match frame::judge(&record[..length]) {
            Ok((service, total)) => writeln!(out, "{count} {service:04X} {total}")?,
            Err(number) => writeln!(out, "{count} refused {number}")?,
        }
    }
    writeln!(out, "records {count}")
}
