//! Numbers as people write them: yuan with two places for money, with four for prices.

/// Places behind the point of a price, which is in 0.0001 yuan.
pub const PRICE: usize = 4;
/// Places behind the point of money, which is in fen.
pub const MONEY: usize = 2;

/// Money in yuan.
pub fn yuan(fen: impl Into<i128>) -> String {
    shown(fen.into(), MONEY)
}

/// A price in yuan.
pub fn price(price: impl Into<i128>) -> String {
    shown(price.into(), PRICE)
}

/// A whole number of the last place, with its point.
pub fn shown(value: impl Into<i128>, places: usize) -> String {
    let value = value.into();
    let sign = if value < 0 { "-" } else { "" };
    if places == 0 {
        return format!("{sign}{}", value.unsigned_abs());
    }
    let scale = 10_u128.pow(places as u32);
    let (whole, part) = (value.unsigned_abs() / scale, value.unsigned_abs() % scale);
    format!("{sign}{whole}.{part:0places$}")
}

/// So many of something that takes an s in the plural.
pub fn counted(count: u64, what: &str) -> String {
    let more = if count == 1 { "" } else { "s" };
    format!("{count} {what}{more}")
}

/// The number that the text spells in units of the last place: digits, and a point with at most so many digits behind it.
pub fn read(text: &str, places: usize) -> Option<u64> {
    let (whole, part) = match text.split_once('.') {
        Some((whole, part)) if (1..=places).contains(&part.len()) => (whole, part),
        Some(_) => return None,
        None => (text, ""),
    };
    let digits = format!("{whole}{part:0<places$}");
    let spelled = !whole.is_empty() && digits.bytes().all(|byte| byte.is_ascii_digit());
    if spelled {
        digits.parse().ok()
    } else {
        None
    }
}

#[cfg(test)]
mod tests {
    use super::*;

    #[test]
    fn shown_with_their_places() {
        assert_eq!(yuan(600_000), "6000.00");
        assert_eq!(yuan(-5), "-0.05");
        assert_eq!(yuan(u64::MAX), "184467440737095516.15");
        assert_eq!(price(500), "0.0500");
        assert_eq!(shown(7, 0), "7");
    }

    #[test]
    fn read_as_shown() {
        for value in [0, 1, 99, 100, 12_345, u64::MAX] {
            for places in [0, MONEY, PRICE] {
                assert_eq!(read(&shown(value, places), places), Some(value));
            }
        }
    }

    #[test]
    fn read_in_fewer_places_or_not_at_all() {
        assert_eq!(read("6000", MONEY), Some(600_000));
        assert_eq!(read("6000.5", MONEY), Some(600_050));
        for wrong in [
            "",
            ".5",
            "5.",
            "-1",
            "+1",
            "1.234",
            "1,000",
            "1e3",
            "184467440737095516.16",
        ] {
            assert_eq!(read(wrong, MONEY), None, "{wrong}");
        }
        assert_eq!(read("1.0", 0), None);
    }
}
