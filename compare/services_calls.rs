// The compared calls of services.rs; their rows are in calls.rs.

use crate::calls::{count, handed_out, hpai_of, hpai_values, said, Said};
use crate::protocol::services::{
    ConnectRequest, ConnectResponse, ConnectionHeader, ConnectionRequestInfo,
    ConnectionStateRequest, ConnectionStateResponse, DisconnectRequest, DisconnectResponse,
    TunnelingAck, TunnelingRequest,
};

// ConnectionRequestInfo

fn cri_values(cri: &ConnectionRequestInfo) -> Vec<usize> {
    vec![cri.connection_type.into(), cri.knx_layer.into()]
}

fn cri_of(args: &[u8]) -> Option<ConnectionRequestInfo> {
    Some(ConnectionRequestInfo { connection_type: *args.first()?, knx_layer: *args.get(1)? })
}

pub fn cri_tunnel_link_layer(_: &[u8], _: &mut [u8]) -> Said {
    Some(Ok(cri_values(&ConnectionRequestInfo::tunnel_link_layer())))
}

pub fn cri_encode(args: &[u8], buf: &mut [u8]) -> Said {
    count(cri_of(args)?.encode(buf))
}

pub fn cri_decode(args: &[u8], _: &mut [u8]) -> Said {
    said(ConnectionRequestInfo::decode(args).map(|cri| cri_values(&cri)))
}

// ConnectRequest and ConnectResponse

fn connect_new(args: &[u8]) -> Option<ConnectRequest> {
    Some(ConnectRequest::new(hpai_of(args)?, hpai_of(args.get(8..)?)?))
}

pub fn connect_new_build(args: &[u8], buf: &mut [u8]) -> Said {
    count(connect_new(args)?.build(buf))
}

pub fn connect_build(args: &[u8], buf: &mut [u8]) -> Said {
    let request = ConnectRequest { cri: cri_of(args.get(16..)?)?, ..connect_new(args)? };
    count(request.build(buf))
}

pub fn connect_response_parse(args: &[u8], _: &mut [u8]) -> Said {
    said(ConnectResponse::parse(args).map(|response| {
        let mut values = hpai_values(&response.data_endpoint);
        values.extend([response.channel_id, response.status].map(usize::from));
        values.extend(response.crd.map(usize::from));
        values.push(response.is_ok().into());
        values
    }))
}

// ConnectionStateRequest, ConnectionStateResponse, DisconnectRequest, DisconnectResponse

pub fn state_request_build(args: &[u8], buf: &mut [u8]) -> Said {
    let (channel, rest) = args.split_first()?;
    count(ConnectionStateRequest::new(*channel, hpai_of(rest)?).build(buf))
}

pub fn state_response_parse(args: &[u8], _: &mut [u8]) -> Said {
    said(ConnectionStateResponse::parse(args).map(|response| {
        vec![response.channel_id.into(), response.status.into(), response.is_ok().into()]
    }))
}

pub fn disconnect_request_build(args: &[u8], buf: &mut [u8]) -> Said {
    let (channel, rest) = args.split_first()?;
    count(DisconnectRequest::new(*channel, hpai_of(rest)?).build(buf))
}

pub fn disconnect_response_parse(args: &[u8], _: &mut [u8]) -> Said {
    said(DisconnectResponse::parse(args).map(|response| {
        vec![response.channel_id.into(), response.status.into(), response.is_ok().into()]
    }))
}

// ConnectionHeader

fn connection_header_values(header: &ConnectionHeader) -> Vec<usize> {
    vec![header.channel_id.into(), header.sequence_counter.into()]
}

fn connection_header_of(args: &[u8]) -> Option<ConnectionHeader> {
    Some(ConnectionHeader::new(*args.first()?, *args.get(1)?))
}

pub fn connection_header_encode(args: &[u8], buf: &mut [u8]) -> Said {
    count(connection_header_of(args)?.encode(buf))
}

pub fn connection_header_decode(args: &[u8], _: &mut [u8]) -> Said {
    said(ConnectionHeader::decode(args).map(|header| connection_header_values(&header)))
}

// TunnelingRequest and TunnelingAck

pub fn tunneling_request_build(args: &[u8], buf: &mut [u8]) -> Said {
    count(TunnelingRequest::new(connection_header_of(args)?, &args[2..]).build(buf))
}

pub fn tunneling_request_parse(args: &[u8], _: &mut [u8]) -> Said {
    said(TunnelingRequest::parse(args).map(|request| {
        let mut values = connection_header_values(&request.connection_header);
        values.extend(handed_out(request.cemi_data, args));
        values
    }))
}

pub fn tunneling_ack_build(args: &[u8], buf: &mut [u8]) -> Said {
    count(TunnelingAck::new(connection_header_of(args)?, *args.get(2)?).build(buf))
}

pub fn tunneling_ack_parse(args: &[u8], _: &mut [u8]) -> Said {
    said(TunnelingAck::parse(args).map(|ack| {
        let mut values = connection_header_values(&ack.connection_header);
        values.push(ack.status.into());
        values.push(ack.is_ok().into());
        values
    }))
}
