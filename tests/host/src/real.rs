//! The real messages of the source documents; data/README.md says where each stands there.

/// The messages, with their lengths.
pub const MESSAGES: [(&[u8], usize); 4] = [
    (include_bytes!("../data/004-line-98.hl7"), 367),
    (include_bytes!("../data/004-line-1998.hl7"), 524),
    (include_bytes!("../data/004-line-2296.hl7"), 789),
    (include_bytes!("../data/004-line-4316.hl7"), 138),
];

/// Three MSA segments and a PID segment that stand there without their messages.
pub const SEGMENTS: &[u8] = include_bytes!("../data/004-segments.hl7");
