//! The numbers that refuse a call, in the order of the paper's table.

/// A file of under 16 bytes.
pub const NO_HEAD: u8 = 1;
/// The file does not begin with "FWN".
pub const MARK: u8 = 2;
/// Another version than 1 and 2.
pub const VERSION: u8 = 3;
/// A head field out of range, or a head byte that should be zero.
pub const HEAD_FIELD: u8 = 4;
/// Length not 16 + 804c + 16n, or 16 + 804c + 20n in version 2.
pub const LENGTH: u8 = 5;
/// A curve entry out of range or rising.
pub const CURVE_ENTRY: u8 = 6;
/// A record field out of range, or a record byte that should be zero.
pub const RECORD_FIELD: u8 = 7;
/// F × T > 3600 × L: a vehicle could cross the segment in under a step.
pub const TOO_SHORT_A_SEGMENT: u8 = 8;
/// No curve of that number.
pub const NO_CURVE: u8 = 10;
/// The lent arrays are too short.
pub const ARRAYS: u8 = 11;
/// What the lent arrays hold is not sound.
pub const NOT_SOUND: u8 = 12;
/// A list whose length is not n.
pub const LIST_LENGTH: u8 = 13;
/// Start: more mv than J × G, speed outside 1,000..F, or a queue above
/// 1,000,000 or without an origin.
pub const START_FIGURE: u8 = 14;
/// Step: an arrival above 1,000,000 or without an origin.
pub const ARRIVAL: u8 = 15;
/// Step: 20,000 steps on the line, or 1,000,000 since Start.
pub const NO_MORE_STEPS: u8 = 16;
/// Segment outside 1..n.
pub const NO_SEGMENT: u8 = 17;
/// Limit neither 0 nor 20..200, or compliance outside −500..500.
pub const SIGN: u8 = 18;
/// Meter or drain where no segment is before or without an origin.
pub const NO_RAMP: u8 = 19;
/// A meter's setting out of range.
pub const SETTING: u8 = 20;
/// No such slot.
pub const NO_SLOT: u8 = 21;
/// Hold into a filled slot.
pub const FILLED: u8 = 22;
/// An empty slot.
pub const EMPTY: u8 = 23;
/// The lent buffer is too short.
pub const BUFFER: u8 = 24;
/// A survey file of under 8 bytes, of another mark or of another version.
pub const SURVEY_HEAD: u8 = 25;
/// Survey: another n than the study's or outside 1..40, more than 20,000
/// rows, or a length that is not that of whole rows.
pub const SURVEY_SIZE: u8 = 26;
/// A follower that is not higher than its segment or above n, a second without
/// a first, or one segment named twice.
pub const FOLLOWER: u8 = 27;
/// A segment with neither a segment before it nor an origin.
pub const NOTHING_ENTERS: u8 = 28;
