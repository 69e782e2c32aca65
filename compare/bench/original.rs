// The other side: the published Rust behind the border's signatures, and, where it has no such call,
// the comparison's own writing of document 01, for additional information and the standard count those
// of info.rs and standard.rs. It says no offset of a refusal, which the Rust does not have. Crate root:
// the published files stand beside it.

pub mod addressing;
pub mod border;
pub mod error;
pub mod info;
pub mod ldata_builder;
pub mod standard;
pub mod tunnel_table;

pub mod protocol {
    pub mod cemi;
    pub mod constants;
    pub mod frame;
    pub mod services;
}

use border::{
    KnxAdditionalInfo, KnxCalled, KnxConnectResponse, KnxCount, KnxFrame, KnxHpai, KnxLData,
    KnxPart, KnxWritten, Lead,
};
use error::{KnxError, Result};
use info::Record;
use ldata_builder::LDataBuilder;
use protocol::cemi::{extract_6bit_value, Apci, CEMIFrame, Tpci};
use protocol::constants::CEMIMessageCode;
use protocol::frame::{Hpai, KnxnetIpFrame};
use protocol::services::{ConnectResponse, ConnectionHeader, TunnelingRequest};
use std::slice::{from_raw_parts, from_raw_parts_mut};
use tunnel_table::{Answer, Table};

/// The start and the end of a part of the bytes it was read from.
fn place(part: &[u8], whole: &[u8]) -> (usize, usize) {
    let start = part.as_ptr() as usize - whole.as_ptr() as usize;
    (start, start + part.len())
}

#[no_mangle]
pub unsafe extern "C" fn rust_frame_parse(data: *const u8, length: usize) -> KnxFrame {
    let data = from_raw_parts(data, length);
    match KnxnetIpFrame::parse(data) {
        Ok(frame) => {
            let (start, end) = place(frame.body(), data);
            let service = frame.service_type().to_u16();
            let total = frame.header().total_length;
            KnxFrame { start, end, service, total, ..KnxFrame::default() }
        }
        Err(error) => KnxFrame { number: error.number(), ..KnxFrame::default() },
    }
}

#[no_mangle]
pub unsafe extern "C" fn rust_hpai_parse(data: *const u8, length: usize) -> KnxHpai {
    match Hpai::parse(from_raw_parts(data, length)) {
        Ok(hpai) => KnxHpai {
            structure_length: hpai.structure_length,
            host_protocol: hpai.host_protocol,
            address: hpai.ip_address,
            port: hpai.port,
            ..KnxHpai::default()
        },
        Err(error) => KnxHpai { number: error.number(), ..KnxHpai::default() },
    }
}

#[no_mangle]
pub unsafe extern "C" fn rust_connect_response(
    body: *const u8,
    length: usize,
) -> KnxConnectResponse {
    match ConnectResponse::parse(from_raw_parts(body, length)) {
        Ok(response) => KnxConnectResponse {
            channel: response.channel_id,
            status: response.status,
            structure_length: response.data_endpoint.structure_length,
            host_protocol: response.data_endpoint.host_protocol,
            address: response.data_endpoint.ip_address,
            port: response.data_endpoint.port,
            crd: response.crd,
            ..KnxConnectResponse::default()
        },
        Err(error) => {
            KnxConnectResponse { number: error.number(), ..KnxConnectResponse::default() }
        }
    }
}

/// As one writes it over the published crate's parser, which does not read a gateway's refusal.
#[no_mangle]
pub unsafe extern "C" fn rust_connect_response_standard(
    body: *const u8,
    length: usize,
) -> KnxConnectResponse {
    match *from_raw_parts(body, length) {
        [channel, status, ..] if status != 0 => {
            KnxConnectResponse { channel, status, ..KnxConnectResponse::default() }
        }
        _ => rust_connect_response(body, length),
    }
}

#[no_mangle]
pub unsafe extern "C" fn rust_cemi_ldata(data: *const u8, length: usize) -> KnxLData {
    match cemi_ldata(from_raw_parts(data, length)) {
        Ok(answer) => answer,
        Err(error) => KnxLData { number: error.number(), ..KnxLData::default() },
    }
}

#[inline(always)]
fn cemi_ldata(data: &[u8]) -> Result<KnxLData> {
    let cemi = CEMIFrame::parse(data)?;
    let frame = cemi.as_ldata()?;
    let (start, end) = place(frame.data, data);
    let (tpci_kind, tpci_sequence) = match frame.tpci {
        Tpci::UnnumberedData => (0, 0),
        Tpci::NumberedData { sequence } => (1, sequence),
        Tpci::UnnumberedControl => (2, 0),
        Tpci::NumberedControl { sequence } => (3, sequence),
    };
    Ok(KnxLData {
        start,
        end,
        source: frame.source.raw(),
        destination: frame.destination_raw,
        apci_code: frame.apci.to_u16(),
        message_code: cemi.message_code().to_u8(),
        control_1: frame.ctrl1.raw(),
        control_2: frame.ctrl2.raw(),
        npdu_length: frame.npdu_length,
        tpci_kind,
        tpci_sequence,
        apci_named: u8::from(!matches!(frame.apci, Apci::Unknown(_))),
        control_code: 0,
        six_bit: if frame.tpci.is_data() { extract_6bit_value(data[start - 1]) } else { 0 },
        ..KnxLData::default()
    })
}

#[no_mangle]
pub unsafe extern "C" fn rust_cemi_ldata_standard(data: *const u8, length: usize) -> KnxLData {
    match standard::cemi_ldata(from_raw_parts(data, length)) {
        Ok(answer) => answer,
        Err(number) => KnxLData { number, ..KnxLData::default() },
    }
}

#[no_mangle]
pub unsafe extern "C" fn rust_cemi_additional_info(data: *const u8, length: usize) -> KnxPart {
    let data = from_raw_parts(data, length);
    match CEMIFrame::parse(data).and_then(|cemi| Ok(place(cemi.service_info()?, data))) {
        Ok((end, _)) => KnxPart { start: CEMIFrame::MIN_SIZE, end, ..KnxPart::default() },
        Err(error) => KnxPart { number: error.number(), ..KnxPart::default() },
    }
}

#[no_mangle]
pub unsafe extern "C" fn rust_additional_info(area: *const u8, length: usize) -> KnxAdditionalInfo {
    let area = from_raw_parts(area, length);
    record(info::first(area).map(|first| first.map(|(record, _)| record)), area)
}

#[no_mangle]
pub unsafe extern "C" fn rust_additional_info_nth(
    area: *const u8,
    length: usize,
    n: usize,
) -> KnxAdditionalInfo {
    let area = from_raw_parts(area, length);
    record(info::nth(area, n), area)
}

#[inline(always)]
fn record(answer: core::result::Result<Option<Record>, u8>, area: &[u8]) -> KnxAdditionalInfo {
    match answer {
        Ok(Some(record)) => {
            let (start, end) = place(record.data, area);
            let timestamp = record.timestamp();
            KnxAdditionalInfo {
                start,
                end,
                timestamp: timestamp.unwrap_or(0),
                found: 1,
                named: record.named().into(),
                info_type: record.kind,
                timestamped: timestamp.is_some().into(),
                ..KnxAdditionalInfo::default()
            }
        }
        Ok(None) => KnxAdditionalInfo::default(),
        Err(number) => KnxAdditionalInfo { number, ..KnxAdditionalInfo::default() },
    }
}

#[no_mangle]
pub unsafe extern "C" fn rust_additional_info_count(area: *const u8, length: usize) -> KnxCount {
    match info::count(from_raw_parts(area, length)) {
        Ok(count) => KnxCount { count, ..KnxCount::default() },
        Err(number) => KnxCount { number, ..KnxCount::default() },
    }
}

fn written(answer: core::result::Result<usize, u8>) -> KnxWritten {
    match answer {
        Ok(count) => KnxWritten { count, ..KnxWritten::default() },
        Err(number) => KnxWritten { number, ..KnxWritten::default() },
    }
}

#[no_mangle]
pub unsafe extern "C" fn rust_tunneling_request(
    channel: u8,
    sequence: u8,
    cemi: *const u8,
    length: usize,
    out: *mut u8,
    room: usize,
) -> KnxWritten {
    let header = ConnectionHeader::new(channel, sequence);
    let request = TunnelingRequest::new(header, from_raw_parts(cemi, length));
    written(request.build(from_raw_parts_mut(out, room)).map_err(KnxError::number))
}

#[no_mangle]
pub unsafe extern "C" fn rust_ldata_build(
    ctrl1: u8,
    ctrl2: u8,
    source: u16,
    destination: u16,
    tpci: u8,
    apci: u16,
    six_bits: u8,
    data: *const u8,
    length: usize,
    out: *mut u8,
    room: usize,
) -> KnxWritten {
    let (tpci, data) = (Tpci::from_byte(tpci), from_raw_parts(data, length));
    let builder = LDataBuilder { ctrl1, ctrl2, source, destination, tpci, apci, six_bits, data };
    written(builder.build(from_raw_parts_mut(out, room)))
}

#[no_mangle]
pub unsafe extern "C" fn rust_ldata_build_standard(
    control_1: u8,
    control_2: u8,
    source: u16,
    destination: u16,
    tpci: u8,
    code: u16,
    six_bit: u8,
    data: *const u8,
    length: usize,
    out: *mut u8,
    room: usize,
) -> KnxWritten {
    let data = from_raw_parts(data, length);
    let lead = Lead { control_1, control_2, source, destination, tpci, apci_code: code, six_bit };
    written(standard::build(lead, data, from_raw_parts_mut(out, room)))
}

#[no_mangle]
pub unsafe extern "C" fn rust_additional_info_append(
    area: *const u8,
    area_length: usize,
    info_type: u8,
    data: *const u8,
    length: usize,
    out: *mut u8,
    room: usize,
) -> KnxWritten {
    let (area, data) = (from_raw_parts(area, area_length), from_raw_parts(data, length));
    written(info::append(area, info_type, data, from_raw_parts_mut(out, room)))
}

#[no_mangle]
pub unsafe extern "C" fn rust_cemi_build(
    message_code: u8,
    area: *const u8,
    area_length: usize,
    rest: *const u8,
    length: usize,
    out: *mut u8,
    room: usize,
) -> KnxWritten {
    let (area, rest) = (from_raw_parts(area, area_length), from_raw_parts(rest, length));
    let out = from_raw_parts_mut(out, room);
    written(match CEMIMessageCode::from_u8(message_code) {
        Some(code) => info::build(code.to_u8(), area, rest, out),
        None => Err(KnxError::InvalidMessageCode.number()),
    })
}

fn called(answer: core::result::Result<Answer, u8>) -> KnxCalled {
    match answer {
        Ok(Answer { said, view: [start, end], written }) => {
            KnxCalled { start, end, written, said: said as u8, ..KnxCalled::default() }
        }
        Err(number) => KnxCalled { number, ..KnxCalled::default() },
    }
}

#[no_mangle]
pub unsafe extern "C" fn rust_table_open(table: *mut u8, _: usize, id: u8) -> KnxCalled {
    called((*table.cast::<Table>()).open(id))
}

#[no_mangle]
pub unsafe extern "C" fn rust_table_send(
    table: *mut u8,
    _: usize,
    id: u8,
    cemi: *const u8,
    length: usize,
    out: *mut u8,
    room: usize,
) -> KnxCalled {
    let (cemi, out) = (from_raw_parts(cemi, length), from_raw_parts_mut(out, room));
    called((*table.cast::<Table>()).send(id, cemi, out))
}

#[no_mangle]
pub unsafe extern "C" fn rust_table_datagram(
    table: *mut u8,
    _: usize,
    bytes: *const u8,
    length: usize,
    out: *mut u8,
    room: usize,
) -> KnxCalled {
    let (bytes, out) = (from_raw_parts(bytes, length), from_raw_parts_mut(out, room));
    called((*table.cast::<Table>()).datagram(bytes, out))
}

#[no_mangle]
pub unsafe extern "C" fn rust_table_datagram_standard(
    table: *mut u8,
    _: usize,
    bytes: *const u8,
    length: usize,
    out: *mut u8,
    room: usize,
) -> KnxCalled {
    let (bytes, out) = (from_raw_parts(bytes, length), from_raw_parts_mut(out, room));
    called((*table.cast::<Table>()).datagram_standard(bytes, out))
}
