// Crate root of the oracle: the published files, the stand-in, the compared calls, the numbers of
// variants, and the L_Data builder of document 01.
//
// compare/build lays this file and its modules out in target/compare/oracle/src and compiles
// them twice, as knx_release and as knx_checked. The calls are part of this crate, not of the
// driver: a function marked inline is compiled with the switches of the crate that calls it.

pub mod addressing;
pub mod calls;
pub mod error;
mod cemi_calls;
mod ldata_builder;
mod services_calls;
mod variants;

pub mod protocol {
    pub mod cemi;
    pub mod constants;
    pub mod frame;
    pub mod services;
}
