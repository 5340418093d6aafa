//! An ordinary implementation of document 01, written from the paper alone ("the model"), the declarations of the proved
//! library's C interface, and the generator of cases that both are held to.
//!
//! The model's modules follow document 01: [`record`], [`sector`], [`partition`], [`settings`], [`image`], [`boot`], [`update`].
//! [`sha256`] follows FIPS 180-4.

pub mod boot;
pub mod image;
pub mod partition;
pub mod record;
pub mod refusal;
pub mod sector;
pub mod settings;
pub mod sha256;
pub mod update;

pub mod ffi;

pub mod generate;
pub mod rng;
