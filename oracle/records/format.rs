//! Stands for chrono's `format/mod.rs`: what `parsed.rs` takes from it, and calls of the record's setters and getters.
mod parsed;

use crate::Weekday;
use num_traits::FromPrimitive;
use parsed::Parsed;

#[derive(Debug, Clone, Copy)]
pub enum ParseErrorKind {
    OutOfRange,
    Impossible,
    NotEnough,
}

#[derive(Debug, Clone, Copy)]
pub struct ParseError(ParseErrorKind);

pub type ParseResult<T> = Result<T, ParseError>;

const OUT_OF_RANGE: ParseError = ParseError(ParseErrorKind::OutOfRange);
const IMPOSSIBLE: ParseError = ParseError(ParseErrorKind::Impossible);
const NOT_ENOUGH: ParseError = ParseError(ParseErrorKind::NotEnough);

fn set(p: &mut Parsed, name: &str, v: i64) -> ParseResult<()> {
    match name {
        "year" => p.set_year(v),
        "year_div_100" => p.set_year_div_100(v),
        "year_mod_100" => p.set_year_mod_100(v),
        "isoyear" => p.set_isoyear(v),
        "isoyear_div_100" => p.set_isoyear_div_100(v),
        "isoyear_mod_100" => p.set_isoyear_mod_100(v),
        "quarter" => p.set_quarter(v),
        "month" => p.set_month(v),
        "week_from_sun" => p.set_week_from_sun(v),
        "week_from_mon" => p.set_week_from_mon(v),
        "isoweek" => p.set_isoweek(v),
        "weekday" => p.set_weekday(Weekday::from_i64(v).ok_or(OUT_OF_RANGE)?),
        "ordinal" => p.set_ordinal(v),
        "day" => p.set_day(v),
        "ampm" if v == 0 || v == 1 => p.set_ampm(v == 1),
        "ampm" => Err(OUT_OF_RANGE),
        "hour12" => p.set_hour12(v),
        "hour" => p.set_hour(v),
        "minute" => p.set_minute(v),
        "second" => p.set_second(v),
        "nanosecond" => p.set_nanosecond(v),
        "timestamp" => p.set_timestamp(v),
        "offset" => p.set_offset(v),
        _ => panic!("no setter: {name}"),
    }
}

/// The fields in the order of their numbers.
fn fields(p: &Parsed) -> [Option<i64>; 21] {
    [
        p.year().map(i64::from),
        p.year_div_100().map(i64::from),
        p.year_mod_100().map(i64::from),
        p.isoyear().map(i64::from),
        p.isoyear_div_100().map(i64::from),
        p.isoyear_mod_100().map(i64::from),
        p.quarter().map(i64::from),
        p.month().map(i64::from),
        p.week_from_sun().map(i64::from),
        p.week_from_mon().map(i64::from),
        p.isoweek().map(i64::from),
        p.weekday().map(|d| i64::from(d.num_days_from_monday())),
        p.ordinal().map(i64::from),
        p.day().map(i64::from),
        p.hour_div_12().map(i64::from),
        p.hour_mod_12().map(i64::from),
        p.minute().map(i64::from),
        p.second().map(i64::from),
        p.nanosecond().map(i64::from),
        p.timestamp(),
        p.offset().map(i64::from),
    ]
}

pub fn answer(calls: &[(&str, i64)]) -> String {
    let mut p = Parsed::new();
    let said: Vec<String> = calls
        .iter()
        .map(|&(name, v)| match set(&mut p, name, v) {
            Ok(()) => "ok".to_string(),
            Err(ParseError(kind)) => format!("err {kind:?}"),
        })
        .collect();
    let mut line = said.join(" ; ") + " |";
    for (i, v) in fields(&p).iter().enumerate() {
        if let Some(v) = v {
            line += &format!(" {}={v}", i + 1);
        }
    }
    line
}
