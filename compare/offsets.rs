// Where a refusal was decided (document 02, 3/13), written for the comparison alone: the checks of
// each call once more, in the order of 01 and 02, each with its number and its place in the input.
// The lines come from elsewhere. A line whose numbers are not those of these checks has no offsets,
// and stops the run.

const TOO_SMALL: u8 = 1;
const INVALID_FRAME: u8 = 2;
const UNSUPPORTED_VERSION: u8 = 3;
const UNKNOWN_SERVICE: u8 = 4;
const INVALID_MESSAGE_CODE: u8 = 6;
const NOT_OPEN: u8 = 9;
const NOT_FOR_TUNNELS: u8 = 12;
const NO_RECORD: u8 = 14;

const REQUEST: u16 = 0x0420;
const ACKNOWLEDGEMENT: u16 = 0x0421;
const OTHER_SERVICES: [u16; 6] = [0x0205, 0x0206, 0x0207, 0x0208, 0x0209, 0x020A];
const LDATA_CODES: [u8; 3] = [0x11, 0x29, 0x2E];
const OTHER_CODES: [u8; 4] = [0x10, 0x2D, 0x2F, 0x2B];

/// Accepted, or a number and the offset of what decided it.
type Checked = Result<(), (u8, usize)>;

/// What a record's line ends in: ` @OFFSET` for each refusal that it tells, in their order. None
/// where the checks have other numbers than the line.
pub fn behind(call: u8, args: &[u8], room: usize, line: &str) -> Option<String> {
    let told = numbers(call, line)?;
    let checked = check(call, args, room, told[0])?;
    let number = |one: &Checked| one.map_or_else(|(number, _)| number, |()| 0);
    let offset = |one: Checked| one.err().map(|(_, offset)| format!(" @{offset}"));
    let same = checked.iter().map(number).eq(told);
    same.then(|| checked.into_iter().filter_map(offset).collect())
}

/// The number of a line, then those of its accessors where they have their own.
fn numbers(call: u8, line: &str) -> Option<Vec<u8>> {
    let words: Vec<&str> = line.split(' ').collect();
    let places: &[usize] = match call {
        52 => &[0, 1, 6, 8, 12],
        53 => &[0, 3, 5],
        55 | 69 => &[0, 1],
        _ => &[0],
    };
    places.iter().map(|&place| words.get(place)?.parse().ok()).collect()
}

/// One for each number of the line. The number told is asked where it is not the input that decides.
fn check(call: u8, args: &[u8], room: usize, told: u8) -> Option<Vec<Checked>> {
    let one = match (call, args) {
        (3, input) => header(input),
        (6, input) => frame(input),
        (10, input) => hpai(input),
        (14, input) => connection_request_info(input),
        (17, body) => connect_response(body),
        (73, body) => connect_response_standard(body),
        (74, body) => disconnect_request(body),
        (19 | 21, body) => least(2, body),
        (23 | 25 | 72, input) => least(4, input),
        (27, body) => least(5, body),
        (40, input) => ldata(Count::Crate, input),
        (65, input) => ldata(Count::Standard, input),
        (41, input) => cemi(input),
        (42 | 63, input) => service_information(input),
        (43, input) => as_ldata(Count::Crate, holds_ldata(input), input),
        (66, input) => as_ldata(Count::Standard, holds_ldata(input), input),
        (44 | 54, [code, input @ ..]) => as_ldata(Count::Crate, is_ldata(*code), input),
        (67, [code, input @ ..]) => as_ldata(Count::Standard, is_ldata(*code), input),
        (51, input) => datagram(5, input, room, told),
        (76, input) => datagram(4, input, room, told),
        (59, area) => first_record(area),
        (60, area) | (61, [_, _, _, area @ ..]) => records(area),
        (52, _) => return Some([vec![Ok(())], vec![frame_fields(args)?; 4]].concat()),
        (53, [_, slice @ ..]) => {
            return Some(vec![Ok(()), cemi(slice), service_information(slice)]);
        }
        (55, _) => return Some(vec![Ok(()), ldata_fields(Count::Crate, args)?]),
        (69, _) => return Some(vec![Ok(()), ldata_fields(Count::Standard, args)?]),
        (56, [refused, fields @ ..]) => held(*refused).and(frame_fields(fields)?),
        (57, [refused, fields @ ..]) => held(*refused).and(held_data(Count::Crate, fields)?),
        (70, [refused, fields @ ..]) => held(*refused).and(held_data(Count::Standard, fields)?),
        _ => at_none(call, told)?,
    };
    Some(vec![one])
}

// What reads no input

/// Builders, encoders, conversions of numbers, and the calls on the table that name an id: the
/// refusals that each may give, all at 0.
fn at_none(call: u8, told: u8) -> Option<Checked> {
    let refusals: &[u8] = match call {
        1 => &[4],
        2 => &[5],
        28 => &[6],
        4 | 11 | 13 | 15 | 16 | 18 | 20 | 22 | 26 | 71 | 75 => &[1],
        7 | 24 => &[1, 5],
        45 | 68 => &[13, 5, 1],
        62 | 64 => &[14, 5, 1],
        47 => &[7, 8],
        48 => &[9],
        49 => &[9, 11],
        50 => &[9, 10, 1, 5],
        5 | 8 | 9 | 12 | 29..=39 | 46 | 58 => &[],
        _ => return None,
    };
    match told {
        0 => Some(Ok(())),
        _ => refusals.contains(&told).then_some(Err((told, 0))),
    }
}

// What all checks are made of

fn unless(holds: bool, number: u8, offset: usize) -> Checked {
    if holds { Ok(()) } else { Err((number, offset)) }
}

/// What is too short is so at its end.
fn least(count: usize, input: &[u8]) -> Checked {
    unless(input.len() >= count, TOO_SMALL, input.len())
}

/// A part that starts later adds its own start.
fn from(start: usize, part: Checked) -> Checked {
    part.map_err(|(number, offset)| (number, start + offset))
}

fn word(high: u8, low: u8) -> u16 {
    u16::from_be_bytes([high, low])
}

// Frames

fn header(input: &[u8]) -> Checked {
    least(6, input)?;
    unless(input[0] == 6, INVALID_FRAME, 0)?;
    unless(input[1] == 0x10, UNSUPPORTED_VERSION, 1)?;
    let service = word(input[2], input[3]);
    let known = OTHER_SERVICES.contains(&service) || is_tunnelled(service);
    unless(known, UNKNOWN_SERVICE, 2)
}

fn is_tunnelled(service: u16) -> bool {
    matches!(service, REQUEST | ACKNOWLEDGEMENT)
}

fn frame(input: &[u8]) -> Checked {
    header(input)?;
    total_length(word(input[4], input[5]), input)
}

/// Below 6 and past the end are decided by the same field.
fn total_length(total: u16, input: &[u8]) -> Checked {
    unless((6..=input.len()).contains(&total.into()), INVALID_FRAME, 4)
}

/// A datagram whose acknowledgements have a body of so many bytes. A body is too short at the end
/// that the total length gives it. Behind that the table decides: the channel is not open, or the
/// output is too small for an acknowledgement, which is nowhere in the datagram.
fn datagram(acknowledgement: usize, input: &[u8], room: usize, told: u8) -> Checked {
    frame(input)?;
    let (service, total) = (word(input[2], input[3]), word(input[4], input[5]));
    unless(is_tunnelled(service), NOT_FOR_TUNNELS, 2)?;
    least_body(if service == REQUEST { 4 } else { acknowledgement }, total.into())?;
    unless(told != NOT_OPEN, NOT_OPEN, 7)?;
    let small = service == REQUEST && room < 6 + acknowledgement;
    unless(told != TOO_SMALL || !small, TOO_SMALL, 0)
}

/// A body from 6 to the total length.
fn least_body(count: usize, total: usize) -> Checked {
    unless(total >= 6 + count, TOO_SMALL, total)
}

// Bodies

fn hpai(input: &[u8]) -> Checked {
    least(8, input)?;
    unless(input[0] == 8, INVALID_FRAME, 0)
}

fn connection_request_info(input: &[u8]) -> Checked {
    least(4, input)?;
    unless(input[0] == 4, INVALID_FRAME, 0)
}

/// The Hpai stands behind channel and status.
fn connect_response(body: &[u8]) -> Checked {
    least(14, body)?;
    from(2, hpai(&body[2..]))
}

/// In KNX's own form a status other than 0 ends the checks.
fn connect_response_standard(body: &[u8]) -> Checked {
    least(2, body)?;
    if body[1] != 0 { Ok(()) } else { connect_response(body) }
}

/// The Hpai stands behind channel and reserved byte.
fn disconnect_request(body: &[u8]) -> Checked {
    least(10, body)?;
    from(2, hpai(&body[2..]))
}

// cEMI frames

fn cemi(input: &[u8]) -> Checked {
    least(2, input)?;
    let known = LDATA_CODES.contains(&input[0]) || OTHER_CODES.contains(&input[0]);
    unless(known, INVALID_MESSAGE_CODE, 0)
}

/// The byte behind the code says where the service information starts.
fn service_information(input: &[u8]) -> Checked {
    cemi(input)?;
    unless(input.len() >= service_start(input), INVALID_FRAME, 1)
}

fn service_start(input: &[u8]) -> usize {
    2 + usize::from(input[1])
}

/// Whether the code that is read is L_Data's; of an empty input there is none.
fn holds_ldata(input: &[u8]) -> bool {
    input.first().is_some_and(|code| LDATA_CODES.contains(code))
}

/// Whether the code that a record holds is, which a byte names by its number.
fn is_ldata(code: u8) -> bool {
    code <= 3
}

/// A code that is not L_Data's is asked before the additional information; of one that a record
/// holds the place is the code's all the same.
fn as_ldata(count: Count, is_ldata: bool, input: &[u8]) -> Checked {
    cemi(input)?;
    unless(is_ldata, INVALID_MESSAGE_CODE, 0)?;
    service_information(input)?;
    let start = service_start(input);
    from(start, ldata(count, &input[start..]))
}

// L_Data

#[derive(Clone, Copy)]
enum Count {
    Crate,
    Standard,
}

impl Count {
    fn least(self) -> usize {
        match self {
            Count::Crate => 9,
            Count::Standard => 8,
        }
    }

    /// Every cause of 2 is a matter of L: too small for its packet, too large, or an end past so
    /// many bytes.
    fn npdu(self, control: bool, npdu: u8, length: usize) -> Checked {
        let (allowed, end) = match (self, control) {
            (Count::Crate, false) => (2..=255, 7),
            (Count::Crate, true) => (1..=255, 7),
            (Count::Standard, false) => (1..=254, 8),
            (Count::Standard, true) => (0..=0, 8),
        };
        let end = end + usize::from(npdu);
        unless(allowed.contains(&npdu) && end <= length, INVALID_FRAME, 6)
    }
}

fn ldata(count: Count, input: &[u8]) -> Checked {
    least(count.least(), input)?;
    count.npdu(input[7] & 0x80 != 0, input[6], input.len())
}

/// Whether a TPCI, by the number of its kind, is that of a control packet.
fn is_control(kind: u8) -> bool {
    kind >= 2
}

// Additional information

/// Where the area behind a record starts; None where it has no such record.
fn behind_record(area: &[u8]) -> Option<usize> {
    let end = 2 + usize::from(*area.get(1)?);
    (end <= area.len()).then_some(end)
}

/// Of an empty area nothing is refused.
fn first_record(area: &[u8]) -> Checked {
    unless(area.is_empty() || behind_record(area).is_some(), NO_RECORD, 0)
}

/// The first record that is broken, at its type byte.
fn records(area: &[u8]) -> Checked {
    let mut start = 0;
    while let Some(length) = behind_record(&area[start..]) {
        start += length;
    }
    unless(start == area.len(), NO_RECORD, start)
}

// Records that no parse made: the checks of the parser, over the fields and the slice's length

/// Length, version, service and total, then the slice. The service is typed: it is always known.
fn frame_fields(args: &[u8]) -> Option<Checked> {
    let &[length, version, _, high, low, ref slice @ ..] = args else {
        return None;
    };
    let checks = || {
        least(6, slice)?;
        unless(length == 6, INVALID_FRAME, 0)?;
        unless(version == 0x10, UNSUPPORTED_VERSION, 1)?;
        total_length(word(high, low), slice)
    };
    Some(checks())
}

/// `data` asks L and the kind among the twelve bytes of the fields.
fn ldata_fields(count: Count, args: &[u8]) -> Option<Checked> {
    let (fields, slice) = args.split_at_checked(12)?;
    let npdu = || count.npdu(is_control(fields[7]), fields[6], slice.len());
    Some(least(count.least(), slice).and_then(|()| npdu()))
}

/// L, kind and sequence, then the data, which in its frame stood behind 9 bytes, in a control
/// packet behind 8. The least size is not asked.
fn held_data(count: Count, args: &[u8]) -> Option<Checked> {
    let &[npdu, kind, _, ref data @ ..] = args else {
        return None;
    };
    let control = is_control(kind);
    let start = if control { 8 } else { 9 };
    Some(count.npdu(control, npdu, start + data.len()))
}

/// The refusal that a record holds, with the offset that the port's program gives it to hold.
fn held(refused: u8) -> Checked {
    unless(refused == 0, refused, 100 + usize::from(refused))
}
