//! The original library `conl`, unchanged: its text stays outside this repository, and build.rs finds it.
#![allow(warnings, clippy::all)]

include!(env!("CONL_ORIGINAL_FILE"));
