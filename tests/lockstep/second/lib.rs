//! A second SHE device, for comparison with the first one, with which it shares no line.
//!
//! AES comes from the field's arithmetic, first blocks are numbers of 128 bits, and the device is a type in which a device that
//! isn't made cannot be written down. Sections are those of AUTOSAR TR 948 ("001"), unless another paper is named; "house" marks
//! a rule of the project's own paper where 001 leaves a choice.
//!
//! This is the library that stands beside the one for C. With main.rs the same device is a program, beside those that read lines.

pub mod aes;
pub mod algorithms;
pub mod answer;
pub mod book;
pub mod c;
pub mod device;
pub mod messages;
pub mod modes;
