//! Tests of the second engine against documents 01 and 02 and against plain definitions.

mod brute_force;
mod buffers;
mod calls;
mod copies;
mod desk;
mod large;
mod naive;
mod plans;
mod reader;
mod refusals;
mod small_tables;
