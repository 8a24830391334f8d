//! Stands for chrono's `format/mod.rs`: what `scan.rs` takes from it, and calls of what it keeps to its crate.
mod scan;

#[derive(Debug, Clone, Copy)]
pub struct ParseError(&'static str);

pub type ParseResult<T> = Result<T, ParseError>;

const OUT_OF_RANGE: ParseError = ParseError("OutOfRange");
const INVALID: ParseError = ParseError("Invalid");
const TOO_SHORT: ParseError = ParseError("TooShort");

fn pair<V: std::fmt::Display>(text: &str, r: ParseResult<(&str, V)>) -> String {
    match r {
        Ok((rest, v)) => format!("ok {v} {}", text.len() - rest.len()),
        Err(ParseError(kind)) => format!("err {kind}"),
    }
}

fn mark(text: &str, r: ParseResult<&str>) -> String {
    match r {
        Ok(rest) => format!("ok {}", text.len() - rest.len()),
        Err(ParseError(kind)) => format!("err {kind}"),
    }
}

pub fn answer(leaf: &str, a: &[usize], text: &str) -> String {
    match leaf {
        "text" => format!("ok {}", text.len()),
        "blanks" => mark(text, Ok(text.trim_start())),
        "non_blanks" => mark(text, Ok(text.trim_start_matches(|c: char| !c.is_whitespace()))),
        "char" => mark(text, scan::char(text, a[0] as u8)),
        "space" => mark(text, scan::space(text)),
        "colon_or_space" => mark(text, scan::colon_or_space(text)),
        "number" => pair(text, scan::number(text, a[0], a[1])),
        "nanosecond" => pair(text, scan::nanosecond(text)),
        "nanosecond_fixed" => pair(text, scan::nanosecond_fixed(text, a[0])),
        "short_month0" => pair(text, scan::short_month0(text)),
        "short_or_long_month0" => pair(text, scan::short_or_long_month0(text)),
        "short_weekday" => pair(text, scan::short_weekday(text)),
        "short_or_long_weekday" => pair(text, scan::short_or_long_weekday(text)),
        "timezone_offset" => {
            let (zulu, missing, minus) = (a[1] == 1, a[2] == 1, a[3] == 1);
            match a[0] {
                0 => pair(text, scan::timezone_offset(text, |s| Ok(s), zulu, missing, minus)),
                1 => pair(text, scan::timezone_offset(text, |s| scan::char(s, b':'), zulu, missing, minus)),
                _ => pair(text, scan::timezone_offset(text, scan::colon_or_space, zulu, missing, minus)),
            }
        }
        "timezone_offset_2822" => pair(text, scan::timezone_offset_2822(text)),
        "comment_2822" => match scan::comment_2822(text) {
            Ok((rest, ())) => format!("ok {}", text.len() - rest.len()),
            Err(ParseError(kind)) => format!("err {kind}"),
        },
        _ => "unknown".to_string(),
    }
}
