// The declarations of include/knx.h for a host in Rust. Nothing checks them against the port's source
// but the calls that are made here.

#[repr(C)]
#[derive(Clone, Copy, Debug, Default, PartialEq)]
pub struct KnxFrame {
    pub offset: usize,
    pub start: usize,
    pub end: usize,
    pub service: u16,
    pub total: u16,
    pub number: u8,
}

#[repr(C)]
#[derive(Clone, Copy, Debug, Default, PartialEq)]
pub struct KnxHpai {
    pub offset: usize,
    pub structure_length: u8,
    pub host_protocol: u8,
    pub address: [u8; 4],
    pub port: u16,
    pub number: u8,
}

#[repr(C)]
#[derive(Clone, Copy, Debug, Default, PartialEq)]
pub struct KnxConnectResponse {
    pub offset: usize,
    pub channel: u8,
    pub status: u8,
    pub structure_length: u8,
    pub host_protocol: u8,
    pub address: [u8; 4],
    pub port: u16,
    pub crd: [u8; 4],
    pub number: u8,
}

#[repr(C)]
#[derive(Clone, Copy, Debug, Default, PartialEq)]
pub struct KnxStatus {
    pub offset: usize,
    pub channel: u8,
    pub status: u8,
    pub number: u8,
}

#[repr(C)]
#[derive(Clone, Copy, Debug, Default, PartialEq)]
pub struct KnxDisconnectRequest {
    pub offset: usize,
    pub channel: u8,
    pub structure_length: u8,
    pub host_protocol: u8,
    pub address: [u8; 4],
    pub port: u16,
    pub number: u8,
}

#[repr(C)]
#[derive(Clone, Copy, Debug, Default, PartialEq)]
pub struct KnxLData {
    pub offset: usize,
    pub start: usize,
    pub end: usize,
    pub source: u16,
    pub destination: u16,
    pub apci_code: u16,
    pub message_code: u8,
    pub control_1: u8,
    pub control_2: u8,
    pub npdu_length: u8,
    pub tpci_kind: u8,
    pub tpci_sequence: u8,
    pub apci_named: u8,
    pub control_code: u8,
    pub six_bit: u8,
    pub number: u8,
}

#[repr(C)]
#[derive(Clone, Copy, Debug, Default, PartialEq)]
pub struct KnxPart {
    pub offset: usize,
    pub start: usize,
    pub end: usize,
    pub number: u8,
}

#[repr(C)]
#[derive(Clone, Copy, Debug, Default, PartialEq)]
pub struct KnxAdditionalInfo {
    pub offset: usize,
    pub start: usize,
    pub end: usize,
    pub timestamp: u32,
    pub found: u8,
    pub named: u8,
    pub info_type: u8,
    pub timestamped: u8,
    pub number: u8,
}

#[repr(C)]
#[derive(Clone, Copy, Debug, Default, PartialEq)]
pub struct KnxCount {
    pub offset: usize,
    pub count: usize,
    pub number: u8,
}

#[repr(C)]
#[derive(Clone, Copy, Debug, Default, PartialEq)]
pub struct KnxWritten {
    pub count: usize,
    pub offset: u32,
    pub number: u8,
}

#[repr(C)]
#[derive(Clone, Copy)]
pub struct KnxEndpoint {
    pub address: [u8; 4],
    pub port: u16,
}

#[repr(C)]
#[derive(Clone, Copy, Debug, Default, PartialEq)]
pub struct KnxCalled {
    pub offset: usize,
    pub start: usize,
    pub end: usize,
    pub written: usize,
    pub said: u8,
    pub number: u8,
}

pub mod declared {
    use super::*;

    #[link(name = "knx", kind = "static")]
    extern "C" {
        pub fn knx_frame_parse(data: *const u8, data_length: usize) -> KnxFrame;
        pub fn knx_hpai_parse(data: *const u8, data_length: usize) -> KnxHpai;
        pub fn knx_connect_response_standard(
            body: *const u8,
            body_length: usize,
        ) -> KnxConnectResponse;
        pub fn knx_connect_response(body: *const u8, body_length: usize) -> KnxConnectResponse;
        pub fn knx_own_address(response: KnxConnectResponse) -> u16;
        pub fn knx_connectionstate_response(body: *const u8, body_length: usize) -> KnxStatus;
        pub fn knx_disconnect_response(body: *const u8, body_length: usize) -> KnxStatus;
        pub fn knx_disconnect_request_parse(
            body: *const u8,
            body_length: usize,
        ) -> KnxDisconnectRequest;
        pub fn knx_cemi_ldata_standard(data: *const u8, data_length: usize) -> KnxLData;
        pub fn knx_cemi_ldata(data: *const u8, data_length: usize) -> KnxLData;
        pub fn knx_cemi_additional_info(data: *const u8, data_length: usize) -> KnxPart;
        pub fn knx_additional_info(area: *const u8, area_length: usize) -> KnxAdditionalInfo;
        pub fn knx_additional_info_nth(
            area: *const u8,
            area_length: usize,
            n: usize,
        ) -> KnxAdditionalInfo;
        pub fn knx_additional_info_count(area: *const u8, area_length: usize) -> KnxCount;
        pub fn knx_ldata_build_standard(
            control_1: u8,
            control_2: u8,
            source: u16,
            destination: u16,
            tpci: u8,
            apci_code: u16,
            six_bit: u8,
            data: *const u8,
            data_length: usize,
            out: *mut u8,
            out_length: usize,
        ) -> KnxWritten;
        pub fn knx_ldata_build(
            control_1: u8,
            control_2: u8,
            source: u16,
            destination: u16,
            tpci: u8,
            apci_code: u16,
            six_bit: u8,
            data: *const u8,
            data_length: usize,
            out: *mut u8,
            out_length: usize,
        ) -> KnxWritten;
        pub fn knx_additional_info_append(
            area: *const u8,
            area_length: usize,
            info_type: u8,
            data: *const u8,
            data_length: usize,
            out: *mut u8,
            out_length: usize,
        ) -> KnxWritten;
        pub fn knx_cemi_build(
            message_code: u8,
            additional_info: *const u8,
            additional_info_length: usize,
            service_info: *const u8,
            service_info_length: usize,
            out: *mut u8,
            out_length: usize,
        ) -> KnxWritten;
        pub fn knx_connect_request(
            control: KnxEndpoint,
            data: KnxEndpoint,
            out: *mut u8,
            out_length: usize,
        ) -> KnxWritten;
        pub fn knx_connectionstate_request(
            channel: u8,
            control: KnxEndpoint,
            out: *mut u8,
            out_length: usize,
        ) -> KnxWritten;
        pub fn knx_disconnect_request(
            channel: u8,
            control: KnxEndpoint,
            out: *mut u8,
            out_length: usize,
        ) -> KnxWritten;
        pub fn knx_tunneling_request(
            channel: u8,
            sequence: u8,
            cemi: *const u8,
            cemi_length: usize,
            out: *mut u8,
            out_length: usize,
        ) -> KnxWritten;
        pub fn knx_disconnect_response_build(
            channel: u8,
            status: u8,
            out: *mut u8,
            out_length: usize,
        ) -> KnxWritten;
        pub fn knx_tunneling_ack_standard(
            channel: u8,
            sequence: u8,
            status: u8,
            out: *mut u8,
            out_length: usize,
        ) -> KnxWritten;
        pub fn knx_tunneling_ack(
            channel: u8,
            sequence: u8,
            status: u8,
            out: *mut u8,
            out_length: usize,
        ) -> KnxWritten;
        pub fn knx_table_empty(image: *mut u8, image_length: usize) -> KnxWritten;
        pub fn knx_table_open(image: *mut u8, image_length: usize, id: u8) -> KnxCalled;
        pub fn knx_table_close(image: *mut u8, image_length: usize, id: u8) -> KnxCalled;
        pub fn knx_table_timeout(image: *mut u8, image_length: usize, id: u8) -> KnxCalled;
        pub fn knx_table_send(
            image: *mut u8,
            image_length: usize,
            id: u8,
            cemi: *const u8,
            cemi_length: usize,
            out: *mut u8,
            out_length: usize,
        ) -> KnxCalled;
        pub fn knx_table_datagram_standard(
            image: *mut u8,
            image_length: usize,
            bytes: *const u8,
            bytes_length: usize,
            out: *mut u8,
            out_length: usize,
        ) -> KnxCalled;
        pub fn knx_table_datagram(
            image: *mut u8,
            image_length: usize,
            bytes: *const u8,
            bytes_length: usize,
            out: *mut u8,
            out_length: usize,
        ) -> KnxCalled;
    }
}

// The same over slices. A slice names bytes that are there, and two that are lent at once do not
// overlap, which is all that the functions ask.

pub fn frame_parse(data: &[u8]) -> KnxFrame {
    unsafe { declared::knx_frame_parse(data.as_ptr(), data.len()) }
}

pub fn hpai_parse(data: &[u8]) -> KnxHpai {
    unsafe { declared::knx_hpai_parse(data.as_ptr(), data.len()) }
}

pub fn connect_response_standard(body: &[u8]) -> KnxConnectResponse {
    unsafe { declared::knx_connect_response_standard(body.as_ptr(), body.len()) }
}

pub fn connect_response(body: &[u8]) -> KnxConnectResponse {
    unsafe { declared::knx_connect_response(body.as_ptr(), body.len()) }
}

pub fn own_address(response: KnxConnectResponse) -> u16 {
    unsafe { declared::knx_own_address(response) }
}

pub fn connectionstate_response(body: &[u8]) -> KnxStatus {
    unsafe { declared::knx_connectionstate_response(body.as_ptr(), body.len()) }
}

pub fn disconnect_response(body: &[u8]) -> KnxStatus {
    unsafe { declared::knx_disconnect_response(body.as_ptr(), body.len()) }
}

pub fn disconnect_request_parse(body: &[u8]) -> KnxDisconnectRequest {
    unsafe { declared::knx_disconnect_request_parse(body.as_ptr(), body.len()) }
}

pub fn cemi_ldata_standard(data: &[u8]) -> KnxLData {
    unsafe { declared::knx_cemi_ldata_standard(data.as_ptr(), data.len()) }
}

pub fn cemi_ldata(data: &[u8]) -> KnxLData {
    unsafe { declared::knx_cemi_ldata(data.as_ptr(), data.len()) }
}

pub fn cemi_additional_info(data: &[u8]) -> KnxPart {
    unsafe { declared::knx_cemi_additional_info(data.as_ptr(), data.len()) }
}

pub fn additional_info(area: &[u8]) -> KnxAdditionalInfo {
    unsafe { declared::knx_additional_info(area.as_ptr(), area.len()) }
}

pub fn additional_info_nth(area: &[u8], n: usize) -> KnxAdditionalInfo {
    unsafe { declared::knx_additional_info_nth(area.as_ptr(), area.len(), n) }
}

pub fn additional_info_count(area: &[u8]) -> KnxCount {
    unsafe { declared::knx_additional_info_count(area.as_ptr(), area.len()) }
}

/// What stands in an L_Data frame before its data.
#[derive(Clone, Copy)]
pub struct Lead {
    pub control_1: u8,
    pub control_2: u8,
    pub source: u16,
    pub destination: u16,
    pub tpci: u8,
    pub apci_code: u16,
    pub six_bit: u8,
}

pub fn ldata_build_standard(lead: Lead, data: &[u8], out: &mut [u8]) -> KnxWritten {
    unsafe {
        declared::knx_ldata_build_standard(
            lead.control_1,
            lead.control_2,
            lead.source,
            lead.destination,
            lead.tpci,
            lead.apci_code,
            lead.six_bit,
            data.as_ptr(),
            data.len(),
            out.as_mut_ptr(),
            out.len(),
        )
    }
}

pub fn ldata_build(lead: Lead, data: &[u8], out: &mut [u8]) -> KnxWritten {
    unsafe {
        declared::knx_ldata_build(
            lead.control_1,
            lead.control_2,
            lead.source,
            lead.destination,
            lead.tpci,
            lead.apci_code,
            lead.six_bit,
            data.as_ptr(),
            data.len(),
            out.as_mut_ptr(),
            out.len(),
        )
    }
}

pub fn additional_info_append(
    area: &[u8],
    info_type: u8,
    data: &[u8],
    out: &mut [u8],
) -> KnxWritten {
    unsafe {
        declared::knx_additional_info_append(
            area.as_ptr(),
            area.len(),
            info_type,
            data.as_ptr(),
            data.len(),
            out.as_mut_ptr(),
            out.len(),
        )
    }
}

pub fn cemi_build(
    message_code: u8,
    additional_info: &[u8],
    service_info: &[u8],
    out: &mut [u8],
) -> KnxWritten {
    unsafe {
        declared::knx_cemi_build(
            message_code,
            additional_info.as_ptr(),
            additional_info.len(),
            service_info.as_ptr(),
            service_info.len(),
            out.as_mut_ptr(),
            out.len(),
        )
    }
}

pub fn connect_request(control: KnxEndpoint, data: KnxEndpoint, out: &mut [u8]) -> KnxWritten {
    unsafe { declared::knx_connect_request(control, data, out.as_mut_ptr(), out.len()) }
}

pub fn connectionstate_request(channel: u8, control: KnxEndpoint, out: &mut [u8]) -> KnxWritten {
    unsafe { declared::knx_connectionstate_request(channel, control, out.as_mut_ptr(), out.len()) }
}

pub fn disconnect_request(channel: u8, control: KnxEndpoint, out: &mut [u8]) -> KnxWritten {
    unsafe { declared::knx_disconnect_request(channel, control, out.as_mut_ptr(), out.len()) }
}

pub fn tunneling_request(channel: u8, sequence: u8, cemi: &[u8], out: &mut [u8]) -> KnxWritten {
    unsafe {
        declared::knx_tunneling_request(
            channel,
            sequence,
            cemi.as_ptr(),
            cemi.len(),
            out.as_mut_ptr(),
            out.len(),
        )
    }
}

pub fn disconnect_response_build(channel: u8, status: u8, out: &mut [u8]) -> KnxWritten {
    unsafe { declared::knx_disconnect_response_build(channel, status, out.as_mut_ptr(), out.len()) }
}

pub fn tunneling_ack_standard(channel: u8, sequence: u8, status: u8, out: &mut [u8]) -> KnxWritten {
    unsafe {
        declared::knx_tunneling_ack_standard(channel, sequence, status, out.as_mut_ptr(), out.len())
    }
}

pub fn tunneling_ack(channel: u8, sequence: u8, status: u8, out: &mut [u8]) -> KnxWritten {
    unsafe { declared::knx_tunneling_ack(channel, sequence, status, out.as_mut_ptr(), out.len()) }
}

pub fn table_empty(image: &mut [u8]) -> KnxWritten {
    unsafe { declared::knx_table_empty(image.as_mut_ptr(), image.len()) }
}

pub fn table_open(image: &mut [u8], id: u8) -> KnxCalled {
    unsafe { declared::knx_table_open(image.as_mut_ptr(), image.len(), id) }
}

pub fn table_close(image: &mut [u8], id: u8) -> KnxCalled {
    unsafe { declared::knx_table_close(image.as_mut_ptr(), image.len(), id) }
}

pub fn table_timeout(image: &mut [u8], id: u8) -> KnxCalled {
    unsafe { declared::knx_table_timeout(image.as_mut_ptr(), image.len(), id) }
}

pub fn table_send(image: &mut [u8], id: u8, cemi: &[u8], out: &mut [u8]) -> KnxCalled {
    unsafe {
        declared::knx_table_send(
            image.as_mut_ptr(),
            image.len(),
            id,
            cemi.as_ptr(),
            cemi.len(),
            out.as_mut_ptr(),
            out.len(),
        )
    }
}

pub fn table_datagram_standard(image: &mut [u8], bytes: &[u8], out: &mut [u8]) -> KnxCalled {
    unsafe {
        declared::knx_table_datagram_standard(
            image.as_mut_ptr(),
            image.len(),
            bytes.as_ptr(),
            bytes.len(),
            out.as_mut_ptr(),
            out.len(),
        )
    }
}

pub fn table_datagram(image: &mut [u8], bytes: &[u8], out: &mut [u8]) -> KnxCalled {
    unsafe {
        declared::knx_table_datagram(
            image.as_mut_ptr(),
            image.len(),
            bytes.as_ptr(),
            bytes.len(),
            out.as_mut_ptr(),
            out.len(),
        )
    }
}
