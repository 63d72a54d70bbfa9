//! analyze.rs but for its table, which is the lent one (build.rs makes the copy), with the probe of
//! lines beside it.

include!(concat!(env!("OUT_DIR"), "/over_a_lent_table.rs"));
include!("line_probe.rs");
