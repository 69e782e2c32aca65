// Document 01's tunnel table, which the Rust does not have, written for the comparison alone: its
// rules once more, in 01's order, one search for all. It reads the datagrams by itself, with their
// acknowledgements in 01's form or in KNX's own.

/// The calls on the table.
pub const CALLS: [u8; 7] = [46, 47, 48, 49, 50, 51, 76];

const TOO_SMALL: u8 = 1;
const INVALID_FRAME: u8 = 2;
const UNSUPPORTED_VERSION: u8 = 3;
const UNKNOWN_SERVICE: u8 = 4;
const PAYLOAD_TOO_LARGE: u8 = 5;
const ALREADY_OPEN: u8 = 7;
const TABLE_FULL: u8 = 8;
const NOT_OPEN: u8 = 9;
const WAITS: u8 = 10;
const WAITS_FOR_NOTHING: u8 = 11;
const NOT_FOR_TUNNELS: u8 = 12;

const REQUEST: u16 = 0x0420;
const ACKNOWLEDGEMENT: u16 = 0x0421;
const SERVICES: [u16; 8] =
    [0x0205, 0x0206, 0x0207, 0x0208, 0x0209, 0x020A, REQUEST, ACKNOWLEDGEMENT];

/// The two forms of an acknowledgement: a whole connection header and the status behind it, or, by
/// KNX's own documents, the status for the header's fourth byte.
#[derive(Clone, Copy)]
enum Form {
    Of01,
    Knx,
}

impl Form {
    /// Where the status stands in the body, whose last byte it is.
    fn status_at(self) -> usize {
        match self {
            Form::Of01 => 4,
            Form::Knx => 3,
        }
    }
}

/// Whether a channel waits for an acknowledgement, in the order of the numbers in a record.
#[derive(Clone, Copy, PartialEq)]
enum Wait {
    Idle,
    First,
    Second,
}

#[derive(Clone, Copy)]
struct Channel {
    id: u8,
    /// The expected number.
    r: u8,
    /// The sending number.
    s: u8,
    wait: Wait,
}

/// The quoted answers, in the order of their numbers in a line.
#[derive(Clone, Copy)]
pub enum Said {
    Nothing,
    Repeat,
    GiveUp,
    Deliver,
    Duplicate,
    OutOfOrder,
    Sent,
    Ignored,
}

/// What comes with number 0.
pub struct Answer {
    pub said: Said,
    pub view: [usize; 2],
    pub written: usize,
}

/// An answer with an empty view and nothing written.
fn only(said: Said) -> Answer {
    Answer { said, view: [0, 0], written: 0 }
}

#[derive(Default)]
pub struct Table([Option<Channel>; 8]);

// The rules; a refusal is 01's number

impl Table {
    /// The first place that has the id, and the channel there.
    fn find(&self, id: u8) -> Result<(usize, Channel), u8> {
        for (place, channel) in self.0.iter().enumerate() {
            match channel {
                Some(channel) if channel.id == id => return Ok((place, *channel)),
                _ => {}
            }
        }
        Err(NOT_OPEN)
    }

    pub fn open(&mut self, id: u8) -> Result<Answer, u8> {
        if self.find(id).is_ok() {
            return Err(ALREADY_OPEN);
        }
        let free = self.0.iter().position(Option::is_none).ok_or(TABLE_FULL)?;
        self.0[free] = Some(Channel { id, r: 0, s: 0, wait: Wait::Idle });
        Ok(only(Said::Nothing))
    }

    fn close(&mut self, id: u8) -> Result<Answer, u8> {
        let (place, _) = self.find(id)?;
        self.0[place] = None;
        Ok(only(Said::Nothing))
    }

    pub fn send(&mut self, id: u8, cemi: &[u8], output: &mut [u8]) -> Result<Answer, u8> {
        let (place, channel) = self.find(id)?;
        if channel.wait != Wait::Idle {
            return Err(WAITS);
        }
        if output.len() < 10 + cemi.len() {
            return Err(TOO_SMALL);
        }
        if cemi.len() > 65_525 {
            return Err(PAYLOAD_TOO_LARGE);
        }
        let written = write_frame(REQUEST, &[&[4, id, channel.s, 0], cemi].concat(), output);
        self.0[place] = Some(Channel { wait: Wait::First, ..channel });
        Ok(Answer { written, ..only(Said::Nothing) })
    }

    fn timeout(&mut self, id: u8) -> Result<Answer, u8> {
        let (place, channel) = self.find(id)?;
        match channel.wait {
            Wait::Idle => Err(WAITS_FOR_NOTHING),
            Wait::First => {
                self.0[place] = Some(Channel { wait: Wait::Second, ..channel });
                Ok(only(Said::Repeat))
            }
            Wait::Second => {
                self.0[place] = None;
                Ok(only(Said::GiveUp))
            }
        }
    }

    /// In 01's form.
    pub fn datagram(&mut self, input: &[u8], output: &mut [u8]) -> Result<Answer, u8> {
        self.datagram_in(Form::Of01, input, output)
    }

    /// In KNX's own.
    pub fn datagram_standard(&mut self, input: &[u8], output: &mut [u8]) -> Result<Answer, u8> {
        self.datagram_in(Form::Knx, input, output)
    }

    fn datagram_in(&mut self, form: Form, input: &[u8], output: &mut [u8]) -> Result<Answer, u8> {
        let (service, body) = read_frame(input)?;
        match (service, body) {
            (REQUEST, [_, id, number, _, cemi @ ..]) => {
                self.request(form, *id, *number, cemi.len(), output)
            }
            (ACKNOWLEDGEMENT, [_, id, number, ..]) => {
                let status = *body.get(form.status_at()).ok_or(TOO_SMALL)?;
                self.acknowledgement(*id, *number, status)
            }
            (REQUEST | ACKNOWLEDGEMENT, _) => Err(TOO_SMALL),
            _ => Err(NOT_FOR_TUNNELS),
        }
    }

    fn request(
        &mut self,
        form: Form,
        id: u8,
        number: u8,
        cemi: usize,
        output: &mut [u8],
    ) -> Result<Answer, u8> {
        let (place, channel) = self.find(id)?;
        let before = channel.r.wrapping_sub(1);
        if number != channel.r && number != before {
            return Ok(only(Said::OutOfOrder));
        }
        // Status 0, and in 01's form the zero that ends the header.
        let body = &[4, id, number, 0, 0][..=form.status_at()];
        if output.len() < 6 + body.len() {
            return Err(TOO_SMALL);
        }
        let written = write_frame(ACKNOWLEDGEMENT, body, output);
        if number == before {
            return Ok(Answer { written, ..only(Said::Duplicate) });
        }
        self.0[place] = Some(Channel { r: channel.r.wrapping_add(1), ..channel });
        Ok(Answer { said: Said::Deliver, view: [10, 10 + cemi], written })
    }

    fn acknowledgement(&mut self, id: u8, number: u8, status: u8) -> Result<Answer, u8> {
        let (place, channel) = self.find(id)?;
        if channel.wait == Wait::Idle || number != channel.s {
            return Ok(only(Said::Ignored));
        }
        if status != 0 {
            return self.timeout(id);
        }
        let s = channel.s.wrapping_add(1);
        self.0[place] = Some(Channel { s, wait: Wait::Idle, ..channel });
        Ok(only(Said::Sent))
    }
}

// The layouts

/// The service and the body of a frame.
fn read_frame(input: &[u8]) -> Result<(u16, &[u8]), u8> {
    if input.len() < 6 {
        return Err(TOO_SMALL);
    }
    if input[0] != 6 {
        return Err(INVALID_FRAME);
    }
    if input[1] != 0x10 {
        return Err(UNSUPPORTED_VERSION);
    }
    let service = u16::from_be_bytes([input[2], input[3]]);
    if !SERVICES.contains(&service) {
        return Err(UNKNOWN_SERVICE);
    }
    let total = usize::from(u16::from_be_bytes([input[4], input[5]]));
    if total < 6 || input.len() < total {
        return Err(INVALID_FRAME);
    }
    Ok((service, &input[6..total]))
}

/// Writes a frame to an output that holds it, and gives its length.
fn write_frame(service: u16, body: &[u8], output: &mut [u8]) -> usize {
    let total = 6 + body.len();
    output[..2].copy_from_slice(&[6, 0x10]);
    output[2..4].copy_from_slice(&service.to_be_bytes());
    output[4..6].copy_from_slice(&(total as u16).to_be_bytes());
    output[6..total].copy_from_slice(body);
    total
}

// Records and lines

impl Table {
    /// Performs a call: its number of 01 and its values; None where no such call can be made.
    pub fn call(
        &mut self,
        call: u8,
        args: &[u8],
        buffer: &mut [u8],
    ) -> Option<(u8, Vec<usize>)> {
        let answer = match (call, args) {
            (46, places) => {
                *self = Table::of(places)?;
                Ok(only(Said::Nothing))
            }
            (47, &[id]) => self.open(id),
            (48, &[id]) => self.close(id),
            (49, &[id]) => self.timeout(id),
            (50, [id, cemi @ ..]) => self.send(*id, cemi, buffer),
            (51, input) => self.datagram(input, buffer),
            (76, input) => self.datagram_standard(input, buffer),
            _ => return None,
        };
        let (number, Answer { said, view, written }) = match answer {
            Ok(answer) => (0, answer),
            Err(number) => (number, only(Said::Nothing)),
        };
        let mut values = vec![said as usize, view[0], view[1], written];
        values.extend(self.0.map(place_value));
        Some((number, values))
    }

    /// The table of a record: eight places of five bytes.
    fn of(bytes: &[u8]) -> Option<Table> {
        let places: Option<Vec<_>> = bytes.chunks(5).map(place_of).collect();
        Some(Table(places?.try_into().ok()?))
    }

    /// The numbers r and s of an open channel.
    pub fn numbers(&self, id: u8) -> Option<(u8, u8)> {
        self.find(id).ok().map(|(_, channel)| (channel.r, channel.s))
    }
}

fn place_of(bytes: &[u8]) -> Option<Option<Channel>> {
    match *bytes {
        [0, 0, 0, 0, 0] => Some(None),
        [1, id, r, s, wait] => {
            let wait = *[Wait::Idle, Wait::First, Wait::Second].get(usize::from(wait))?;
            Some(Some(Channel { id, r, s, wait }))
        }
        _ => None,
    }
}

/// A place as one value: 0 for a free one.
fn place_value(place: Option<Channel>) -> usize {
    place.map_or(0, |Channel { id, r, s, wait }| {
        1 + usize::from(id) + 256 * (usize::from(r) + 256 * (usize::from(s) + 256 * wait as usize))
    })
}
