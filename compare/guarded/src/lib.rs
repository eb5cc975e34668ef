//! The library's calls over buffers that are watched: each slice lies between guard elements and starts out full of a pattern (`lent`), and each call
//! has its buffers (`buffers`). The calls themselves are those of bindings/rust, module `ffi`.

pub mod buffers;
pub mod lent;
