// Additional information as one writes it in Rust, over slices: the published crate steps over it.

const TOO_SMALL: u8 = 1;
const PAYLOAD_TOO_LARGE: u8 = 5;
const NOT_FILLED_EXACTLY: u8 = 14;

const RELATIVE_TIMESTAMP: u8 = 4;
const EXTENDED_RELATIVE_TIMESTAMP: u8 = 6;

/// What a length byte can say of an area.
const LONGEST_AREA: usize = 255;

pub struct Record<'a> {
    pub kind: u8,
    pub data: &'a [u8],
}

impl Record<'_> {
    pub fn named(&self) -> bool {
        (1..=7).contains(&self.kind)
    }

    pub fn timestamp(&self) -> Option<u32> {
        match (self.kind, self.data) {
            (RELATIVE_TIMESTAMP, &[a, b]) => Some(u16::from_be_bytes([a, b]).into()),
            (EXTENDED_RELATIVE_TIMESTAMP, &[a, b, c, d]) => Some(u32::from_be_bytes([a, b, c, d])),
            _ => None,
        }
    }
}

/// The record at the front of an area and what remains; None for an empty area.
pub fn first(area: &[u8]) -> Result<Option<(Record<'_>, &[u8])>, u8> {
    match *area {
        [] => Ok(None),
        [kind, length, ref behind @ ..] => match behind.split_at_checked(length.into()) {
            Some((data, rest)) => Ok(Some((Record { kind, data }, rest))),
            None => Err(NOT_FILLED_EXACTLY),
        },
        [_] => Err(NOT_FILLED_EXACTLY),
    }
}

pub fn count(mut area: &[u8]) -> Result<usize, u8> {
    let mut count = 0;
    while let Some((_, rest)) = first(area)? {
        count += 1;
        area = rest;
    }
    Ok(count)
}

/// The record behind n others, of an area that is read to its end.
pub fn nth(mut area: &[u8], n: usize) -> Result<Option<Record<'_>>, u8> {
    let mut found = None;
    let mut passed = 0;
    while let Some((record, rest)) = first(area)? {
        if passed == n {
            found = Some(record);
        }
        passed += 1;
        area = rest;
    }
    Ok(found)
}

pub fn append(area: &[u8], kind: u8, data: &[u8], out: &mut [u8]) -> Result<usize, u8> {
    count(area)?;
    if area.len() + 2 + data.len() > LONGEST_AREA {
        return Err(PAYLOAD_TOO_LARGE);
    }
    write([area, &[kind, data.len() as u8], data], out)
}

pub fn build(code: u8, area: &[u8], rest: &[u8], out: &mut [u8]) -> Result<usize, u8> {
    count(area)?;
    if area.len() > LONGEST_AREA {
        return Err(PAYLOAD_TOO_LARGE);
    }
    write([&[code, area.len() as u8], area, rest], out)
}

/// Writes the pieces one behind another at the start of out.
fn write(pieces: [&[u8]; 3], out: &mut [u8]) -> Result<usize, u8> {
    let total = pieces.iter().map(|piece| piece.len()).sum();
    let mut room = out.get_mut(..total).ok_or(TOO_SMALL)?;
    for piece in pieces {
        let (front, behind) = room.split_at_mut(piece.len());
        front.copy_from_slice(piece);
        room = behind;
    }
    Ok(total)
}
