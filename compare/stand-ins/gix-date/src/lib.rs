//! Stand-in for gix-date. "That number is the seconds, signed 64-bit."
pub type SecondsSinceUnixEpoch = i64;
