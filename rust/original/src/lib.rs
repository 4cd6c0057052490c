//! parquet-variant 60.0.0, from its own source: see `build.rs`.

include!(concat!(env!("OUT_DIR"), "/original/lib.rs"));
