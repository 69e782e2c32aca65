// The frame checks of document 01, shared by the two inspection programs in Rust.

const SERVICES: [u16; 8] = [0x0205, 0x0206, 0x0207, 0x0208, 0x0209, 0x020A, 0x0420, 0x0421];

/// Service and total length, or document 01's number.
pub fn judge(record: &[u8]) -> Result<(u16, u16), u8> {
    if record.len() < 6 {
        return Err(1);
    }
    if record[0] != 6 {
        return Err(2);
    }
    if record[1] != 0x10 {
        return Err(3);
    }
    let service = u16::from_be_bytes([record[2], record[3]]);
    if !SERVICES.contains(&service) {
        return Err(4);
    }
    let total = u16::from_be_bytes([record[4], record[5]]);
    if total < 6 || record.len() < total.into() {
        return Err(2);
    }
    Ok((service, total))
}
