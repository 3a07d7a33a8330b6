//! What the crates use of jiff, as plain Rust.
pub use jiff_core::civil;
use civil::Error;
const SECOND: i128 = 1_000_000_000;
#[derive(Clone, Copy, Debug, PartialEq, Eq, PartialOrd, Ord)]
pub struct SignedDuration(i128);
impl SignedDuration {
    pub const MIN: SignedDuration = SignedDuration(i64::MIN as i128 * SECOND - 999_999_999);
    pub const MAX: SignedDuration = SignedDuration(i64::MAX as i128 * SECOND + 999_999_999);
    pub fn new(seconds: i64, nanos: i32) -> SignedDuration { SignedDuration(i128::from(seconds) * SECOND + i128::from(nanos)) }
    pub fn from_secs(seconds: i64) -> SignedDuration { SignedDuration::new(seconds, 0) }
    pub fn from_nanos(nanos: i64) -> SignedDuration { SignedDuration(nanos.into()) }
    pub fn from_nanos_i128(nanos: i128) -> SignedDuration { SignedDuration(nanos) }
    pub fn checked_add(self, other: SignedDuration) -> Option<SignedDuration> {
        let sum = SignedDuration(self.0 + other.0);
        (SignedDuration::MIN..=SignedDuration::MAX).contains(&sum).then_some(sum)
    }
    pub fn as_nanos(self) -> i128 { self.0 }
    pub fn as_micros(self) -> i128 { self.0 / 1000 }
    pub fn is_negative(self) -> bool { self.0 < 0 }
    pub fn unsigned_abs(self) -> std::time::Duration {
        let nanos = self.0.unsigned_abs();
        std::time::Duration::new((nanos / 1_000_000_000) as u64, (nanos % 1_000_000_000) as u32)
    }
}
#[derive(Clone, Copy, Debug, PartialEq, Eq, PartialOrd, Ord)]
pub struct Timestamp(i128);
impl Timestamp {
    pub const MIN: Timestamp = Timestamp(-377_705_023_201 * SECOND);
    pub const MAX: Timestamp = Timestamp(253_402_207_200 * SECOND + 999_999_999);
    pub fn from_nanosecond(nanos: i128) -> Result<Timestamp, Error> {
        if (Timestamp::MIN.0..=Timestamp::MAX.0).contains(&nanos) { Ok(Timestamp(nanos)) } else { Err(Error) }
    }
    pub fn as_nanosecond(self) -> i128 { self.0 }
}
