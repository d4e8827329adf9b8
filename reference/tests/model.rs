//! The model stands by itself: here it is compiled, and its own tests run, without the tools.

#[allow(dead_code, unused_imports)]
#[path = "../src/model/mod.rs"]
mod model;
