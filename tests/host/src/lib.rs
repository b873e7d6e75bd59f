//! What the tests stand on: the rules of document 01 with those of document 02, §1 to §3 and §14 (`model`
//! for blocks, `message_model` for header fields and messages, `field_model` for the reader over a message,
//! `receiver_model` and `sender_model` for the two ends of a link, `station_model` and `master_model` for
//! the X3.28 receiving and sending stations), the C interface (`ffi`, `ends_ffi`, `station_ffi`,
//! `master_ffi`) and a seeded generator (`prng`).

pub mod ends_ffi;
pub mod ffi;
pub mod field_model;
pub mod master_ffi;
pub mod master_model;
pub mod message_model;
pub mod model;
pub mod prng;
pub mod receiver_model;
pub mod sender_model;
pub mod station_ffi;
pub mod station_model;
