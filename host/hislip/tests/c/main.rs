//! The library as a C host meets it: headers, programs, installation.

mod compiler;
mod header;
mod install;
mod programs;
