//! The plain monitor's tests as one program.

mod common;
mod edges;
mod quick;
mod readings;
mod requests;
mod subtypes;
