//! The crate root for the files of fusion-blossom that are taken over, with stand-ins for the modules that are not there.
#![allow(dead_code, unused_imports, unexpected_cfgs, clippy::all)]
#[macro_use]
pub extern crate serde_json;
pub extern crate cfg_if;
pub extern crate chrono;
pub extern crate derivative;
pub extern crate rand_xoshiro;
pub extern crate rayon;
pub extern crate serde;
pub extern crate urlencoding;

pub mod complete_graph;
pub mod dual_module;
pub mod example_codes;
pub mod mwpm_solver;
pub mod pointers;
pub mod priority_queue;
pub mod recipe;
pub mod util;
pub mod visualize;
