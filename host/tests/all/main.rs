//! The host's tests as one program: a program for each file would be compiled and linked a dozen times over.

mod archive;
mod c;
mod differential;
mod explain;
mod images;
mod layout;
mod logcheck;
mod names;
mod owner;
mod quick;
mod readme;
mod replay;
mod secrecy;
mod trays;
