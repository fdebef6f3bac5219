//! The Rust driver with the attributes of its own file, the functions of calls that it does not have, the module
//! `inner`, which reaches its private functions and fields, and its loop over the detector map as a function (see build.rs).

#![deny(missing_docs)]
#![deny(warnings)]
#![allow(dead_code)]
#![no_std]

include!(concat!(env!("OUT_DIR"), "/vl53l0x.rs"));
