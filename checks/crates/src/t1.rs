//! Tests of `t1_core`.

mod echo;
mod long_tests;
