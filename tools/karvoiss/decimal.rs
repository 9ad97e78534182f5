//! Decimal numbers as they are written, exactly: digits and a power of ten. Coordinates are put on the grid with these and never through a float.

/// `digits` times ten to the `exponent`; zero has exponent 0, and the last digit of others is not 0.
#[derive(Clone, Copy, PartialEq, Eq, Debug)]
pub struct Decimal {
    digits: i128,
    exponent: i32,
}

#[derive(Clone, Copy, PartialEq, Eq, Debug)]
pub enum Fault {
    /// The word is no number.
    NoNumber,
    /// More digits than can be counted exactly.
    TooLong,
}

/// Digits that are kept at most; products and differences of such numbers are tested as they are made.
const MOST: usize = 36;

impl Decimal {
    pub const ZERO: Decimal = Decimal { digits: 0, exponent: 0 };
    pub const ONE: Decimal = Decimal { digits: 1, exponent: 0 };

    /// Digits with a sign, a decimal point or an exponent.
    pub fn read(word: &str) -> Result<Decimal, Fault> {
        let unsigned = word.strip_prefix(['+', '-']).unwrap_or(word);
        let (mantissa, power) = unsigned.split_once(['e', 'E']).unwrap_or((unsigned, "0"));
        let (whole, fraction) = mantissa.split_once('.').unwrap_or((mantissa, ""));
        let written = whole.len() + fraction.len();
        let all: Vec<u8> = whole.bytes().chain(fraction.bytes()).collect();
        if written == 0 || !all.iter().all(u8::is_ascii_digit) || !is_power(power) {
            return Err(Fault::NoNumber);
        }
        let kept = all.iter().rposition(|digit| *digit != b'0').map_or(0, |last| last + 1);
        let first = all.iter().position(|digit| *digit != b'0').unwrap_or(kept);
        if kept == first {
            return Ok(Decimal::ZERO);
        }
        if kept - first > MOST {
            return Err(Fault::TooLong);
        }
        let size = all[first..kept].iter().fold(0, |n: i128, digit| 10 * n + (digit - b'0') as i128);
        let digits = if word.starts_with('-') { -size } else { size };
        // a power too long to be read is as good as one of a million
        let bound = if power.starts_with('-') { -1_000_000 } else { 1_000_000 };
        let power = power.parse::<i32>().unwrap_or(bound).clamp(-1_000_000, 1_000_000);
        Ok(Decimal { digits, exponent: power + whole.len() as i32 - kept as i32 })
    }

    pub fn whole_of(number: i128) -> Decimal {
        Decimal::new(number, 0)
    }

    fn new(digits: i128, exponent: i32) -> Decimal {
        if digits == 0 {
            return Decimal::ZERO;
        }
        let mut number = Decimal { digits, exponent };
        while number.digits % 10 == 0 {
            number = Decimal { digits: number.digits / 10, exponent: number.exponent + 1 };
        }
        number
    }

    pub fn is_above_zero(&self) -> bool {
        self.digits > 0
    }

    pub fn less(self, other: Decimal) -> Result<Decimal, Fault> {
        if other == Decimal::ZERO {
            return Ok(self);
        }
        let exponent = self.exponent.min(other.exponent);
        let aligned = |n: Decimal| power_of_ten(n.exponent - exponent).and_then(|power| n.digits.checked_mul(power));
        let difference = aligned(self).zip(aligned(other)).and_then(|(a, b)| a.checked_sub(b));
        difference.map(|digits| Decimal::new(digits, exponent)).ok_or(Fault::TooLong)
    }

    pub fn times(self, other: Decimal) -> Result<Decimal, Fault> {
        let product = self.digits.checked_mul(other.digits).ok_or(Fault::TooLong)?;
        Ok(Decimal::new(product, self.exponent + other.exponent))
    }

    /// The whole number that it is, as a float: of more than 15 digits rounded, which no coordinate has.
    pub fn whole(&self) -> Option<f64> {
        (self.exponent >= 0).then(|| self.digits as f64 * 10_f64.powi(self.exponent))
    }

    /// The nearest whole number, of two the even one, and how far away it is.
    pub fn nearest(&self) -> (f64, f64) {
        if let Some(whole) = self.whole() {
            return (whole, 0.0);
        }
        let Some(power) = power_of_ten(-self.exponent) else {
            return (0.0, self.to_float().abs());
        };
        let (down, rest) = (self.digits.div_euclid(power), self.digits.rem_euclid(power));
        let up = rest > power - rest || rest == power - rest && down % 2 != 0;
        let moved = if up { power - rest } else { rest };
        ((down + up as i128) as f64, moved as f64 / power as f64)
    }

    pub fn to_float(self) -> f64 {
        format!("{}e{}", self.digits, self.exponent).parse().unwrap_or(f64::NAN)
    }
}

impl std::fmt::Display for Decimal {
    fn fmt(&self, f: &mut std::fmt::Formatter) -> std::fmt::Result {
        let sign = if self.digits < 0 { "-" } else { "" };
        let digits = self.digits.unsigned_abs().to_string();
        let point = digits.len() as i32 + self.exponent;
        match (self.exponent, point) {
            (0..=20, _) => write!(f, "{sign}{digits}{}", "0".repeat(self.exponent as usize)),
            (_, 1..) if self.exponent < 0 => write!(f, "{sign}{}.{}", &digits[..point as usize], &digits[point as usize..]),
            (_, -20..=0) => write!(f, "{sign}0.{}{digits}", "0".repeat(-point as usize)),
            _ => write!(f, "{sign}{digits}e{}", self.exponent),
        }
    }
}

fn is_power(word: &str) -> bool {
    let digits = word.strip_prefix(['+', '-']).unwrap_or(word);
    !digits.is_empty() && digits.bytes().all(|digit| digit.is_ascii_digit())
}

/// None of those that do not fit.
fn power_of_ten(exponent: i32) -> Option<i128> {
    10_i128.checked_pow(u32::try_from(exponent).ok()?)
}

#[cfg(test)]
mod tests {
    use super::*;

    fn read(word: &str) -> Decimal {
        Decimal::read(word).unwrap()
    }

    #[test]
    fn as_written() {
        let words = ["0", "-0", "+7", "-12", "3.000", "3.", "1e3", "12.5E1", "1200e-2", "0e99999999999", "007", ".5", "-0.00120", "1e-30"];
        let shown = ["0", "0", "7", "-12", "3", "3", "1000", "125", "12", "0", "7", "0.5", "-0.0012", "1e-30"];
        assert_eq!(words.map(|word| read(word).to_string()), shown);
        for word in ["", "-", ".", "x", "1x", "1e", "--1", "1.2.3", "1e1e1", "NaN", "inf", "0x1"] {
            assert_eq!(Decimal::read(word), Err(Fault::NoNumber), "{word}");
        }
        assert_eq!(Decimal::read(&"1234567890".repeat(4)), Err(Fault::TooLong));
        assert_eq!(read(&format!("{}1{}", "0".repeat(90), "0".repeat(90))), Decimal { digits: 1, exponent: 90 });
    }

    #[test]
    fn exactly() {
        assert_eq!(read("0.1").times(read("3")), Ok(read("0.3")));
        assert_eq!(read("-81.47275543212890625").less(read("-81.5")), Ok(read("0.02724456787109375")));
        assert_eq!(read("1e-20").less(read("-81.5")), Ok(read("81.50000000000000000001")));
        assert_eq!(read("1e-300").less(read("-81.5")), Err(Fault::TooLong));
        assert_eq!(read("123456789012345678901234567890").times(read("123456789012345678901234567890")), Err(Fault::TooLong));
    }

    #[test]
    fn whole_or_nearest() {
        assert_eq!(["3", "3e2", "-7"].map(|word| read(word).whole()), [Some(3.0), Some(300.0), Some(-7.0)]);
        assert_eq!(read("3.5").whole(), None);
        let words = ["3.4", "3.5", "4.5", "-3.4", "-3.5", "-4.5", "1e-300", "9999999.75"];
        let near = [3.0, 4.0, 4.0, -3.0, -4.0, -4.0, 0.0, 10_000_000.0];
        assert_eq!(words.map(|word| read(word).nearest().0), near);
        assert_eq!(["3.4", "3.5", "-3.25", "7"].map(|word| read(word).nearest().1), [0.4, 0.5, 0.25, 0.0]);
    }
}
