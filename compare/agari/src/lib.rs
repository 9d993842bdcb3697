//! agari-core, compiled unchanged from the folder that build.rs finds.

include!(concat!(env!("OUT_DIR"), "/modules.rs"));
