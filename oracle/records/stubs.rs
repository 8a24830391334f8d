//! Stands for the dates, times and zones that `parsed.rs` resolves a record to: it only has to compile, none of it is run.
use crate::Weekday;

/// What `weekday.rs` answers for a number of no day.
#[derive(Debug, Clone, Copy, PartialEq, Eq)]
pub struct OutOfRange(());

impl OutOfRange {
    pub(crate) const fn new() -> OutOfRange {
        OutOfRange(())
    }
}

/// Functions that are never called.
macro_rules! never {
    ($($name:ident($($type:ty),*) -> $answer:ty;)*) => { $(pub fn $name($(_: $type),*) -> $answer { unimplemented!() })* };
}

/// Methods that are never called.
macro_rules! never_of {
    ($($name:ident($($type:ty),*) -> $answer:ty;)*) => { $(pub fn $name(&self, $(_: $type),*) -> $answer { unimplemented!() })* };
}

pub trait Datelike: Sized {
    fn year(&self) -> i32 { unimplemented!() }
    fn quarter(&self) -> u32 { unimplemented!() }
    fn month(&self) -> u32 { unimplemented!() }
    fn day(&self) -> u32 { unimplemented!() }
    fn ordinal(&self) -> u32 { unimplemented!() }
    fn weekday(&self) -> Weekday { unimplemented!() }
    fn iso_week(&self) -> naive::IsoWeek { unimplemented!() }
    fn with_ordinal(&self, _: u32) -> Option<Self> { unimplemented!() }
}

pub trait Timelike {
    fn hour(&self) -> u32 { unimplemented!() }
    fn minute(&self) -> u32 { unimplemented!() }
    fn second(&self) -> u32 { unimplemented!() }
    fn nanosecond(&self) -> u32 { unimplemented!() }
}

pub struct TimeDelta;

impl TimeDelta {
    never! { try_seconds(i64) -> Option<TimeDelta>; }
}

pub struct DateTime<Tz: offset::TimeZone>(Tz);

impl<Tz: offset::TimeZone> DateTime<Tz> {
    never_of! {
        timestamp() -> i64;
        naive_utc() -> naive::NaiveDateTime;
        offset() -> &Tz::Offset;
    }
}

impl DateTime<offset::FixedOffset> {
    never! {
        from_timestamp(i64, u32) -> Option<Self>;
        from_timestamp_secs(i64) -> Option<Self>;
    }
}

pub mod naive {
    use super::{offset::FixedOffset, DateTime, Datelike, TimeDelta, Timelike, Weekday};

    #[derive(Clone, Copy)]
    pub struct NaiveDate;
    #[derive(Clone, Copy)]
    pub struct NaiveTime;
    #[derive(Clone, Copy)]
    pub struct NaiveDateTime;
    pub struct IsoWeek;

    impl Datelike for NaiveDate {}
    impl Datelike for NaiveDateTime {}
    impl Timelike for NaiveDateTime {}

    impl NaiveDate {
        never! {
            from_ymd_opt(i32, u32, u32) -> Option<Self>;
            from_yo_opt(i32, u32) -> Option<Self>;
            from_isoywd_opt(i32, u32, Weekday) -> Option<Self>;
        }
        never_of! {
            weeks_from(Weekday) -> i32;
            and_time(NaiveTime) -> NaiveDateTime;
        }
    }

    impl NaiveTime {
        never! { from_hms_nano_opt(u32, u32, u32, u32) -> Option<Self>; }
    }

    impl NaiveDateTime {
        never_of! { and_utc() -> DateTime<FixedOffset>; }
    }

    impl std::ops::SubAssign<TimeDelta> for NaiveDateTime {
        fn sub_assign(&mut self, _: TimeDelta) { unimplemented!() }
    }

    impl IsoWeek {
        never_of! {
            year() -> i32;
            week() -> u32;
        }
    }
}

pub mod offset {
    use super::{naive::NaiveDateTime, DateTime};

    pub enum MappedLocalTime<T> {
        Single(T),
        Ambiguous(T, T),
        None,
    }

    pub trait Offset {
        fn fix(&self) -> FixedOffset { unimplemented!() }
    }

    pub trait TimeZone: Sized {
        type Offset: Offset;
        fn offset_from_utc_datetime(&self, _: &NaiveDateTime) -> Self::Offset { unimplemented!() }
        fn from_local_datetime(&self, _: &NaiveDateTime) -> MappedLocalTime<DateTime<Self>> { unimplemented!() }
    }

    pub struct FixedOffset;

    impl FixedOffset {
        never! { east_opt(i32) -> Option<Self>; }
        never_of! { local_minus_utc() -> i32; }
    }

    impl Offset for FixedOffset {}

    impl TimeZone for FixedOffset {
        type Offset = FixedOffset;
    }
}
