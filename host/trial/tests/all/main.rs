//! The trials' own tests as one program.

mod findings;
mod plain;
mod shrink;
