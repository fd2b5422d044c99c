//! Moments and their dates in UTC, as the kit's crate of this name gives them.
#![allow(warnings)]

pub struct Timestamp(i64);
pub struct DateTime(i64);

impl Timestamp {
    pub fn from_second(second: i64) -> Result<Timestamp, ()> {
        Ok(Timestamp(second))
    }
}
pub mod tz {
    pub struct Offset;
    impl Offset {
        pub const UTC: Offset = Offset;
        pub fn to_datetime(&self, at: super::Timestamp) -> super::DateTime {
            super::DateTime(at.0)
        }
    }
}
impl core::fmt::Display for DateTime {
    fn fmt(&self, f: &mut core::fmt::Formatter<'_>) -> core::fmt::Result {
        let (mut day, second) = (self.0.div_euclid(86400), self.0.rem_euclid(86400));
        let mut year = 1970;
        let leap = |y: i64| y % 4 == 0 && (y % 100 != 0 || y % 400 == 0);
        while day >= 365 + leap(year) as i64 {
            day -= 365 + leap(year) as i64;
            year += 1;
        }
        let mut month = 0;
        let days = [31, 28 + leap(year) as i64, 31, 30, 31, 30, 31, 31, 30, 31, 30, 31];
        while day >= days[month] {
            day -= days[month];
            month += 1;
        }
        let (hour, minute, second) = (second / 3600, second / 60 % 60, second % 60);
        write!(f, "{year:04}-{:02}-{:02}T{hour:02}:{minute:02}:{second:02}", month + 1, day + 1)
    }
}
