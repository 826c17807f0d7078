//! Numbers, dates, keys, modalities, code lists and the check digit.

const ZEROS: u64 = 0x3030_3030_3030_3030;
const HIGH_BITS: u64 = 0x8080_8080_8080_8080;

/// The number that a field of at most sixteen digits spells.
#[inline]
#[must_use]
pub fn read_number<const N: usize>(field: &[u8; N]) -> Option<u64> {
    const { assert!(N <= 16) };
    if N <= 4 {
        few_digits(field)
    } else if N <= 8 {
        eight_digits(with_zeros(field))
    } else {
        let padded: [u8; 16] = with_zeros(field);
        let (high, low) = padded.split_first_chunk::<8>()?;
        let low = eight_digits(*low.first_chunk()?)?;
        Some(eight_digits(*high)? * 100_000_000 + low)
    }
}

#[inline]
fn few_digits(field: &[u8]) -> Option<u64> {
    field.iter().try_fold(0, |number, byte| {
        let digit = byte.wrapping_sub(b'0');
        (digit <= 9).then(|| number * 10 + u64::from(digit))
    })
}

#[inline]
fn with_zeros<const N: usize, const W: usize>(field: &[u8; N]) -> [u8; W] {
    let mut padded = [b'0'; W];
    padded[W - N..].copy_from_slice(field);
    padded
}

/// Eight digits at once: pairs, then all, by sums inside one word.
#[inline]
fn eight_digits(bytes: [u8; 8]) -> Option<u64> {
    let word = u64::from_le_bytes(bytes);
    let digits = word.wrapping_sub(ZEROS);
    // The lowest byte that is no digit sets its high bit in one of the two.
    if (digits | word.wrapping_add(0x4646_4646_4646_4646)) & HIGH_BITS != 0 {
        return None;
    }
    let pairs = digits * 10 + (digits >> 8);
    let first = (pairs & 0x0000_00FF_0000_00FF).wrapping_mul(100 + (1_000_000 << 32));
    let second = ((pairs >> 16) & 0x0000_00FF_0000_00FF).wrapping_mul(1 + (10_000 << 32));
    Some(first.wrapping_add(second) >> 32)
}

/// Writes a number with zeros in front; tells whether it fits, and changes nothing if not.
#[inline]
pub fn write_number<const N: usize>(field: &mut [u8; N], number: u64) -> bool {
    const { assert!(N <= 19) };
    if number >= const { 10u64.pow(N as u32) } {
        return false;
    }
    let mut rest = number;
    for pair in field.rchunks_mut(2) {
        let two = (rest % 100) as u8;
        rest /= 100;
        match pair {
            [tens, ones] => (*tens, *ones) = (b'0' + two / 10, b'0' + two % 10),
            odd => odd[0] = b'0' + two,
        }
    }
    true
}

/// Whether each byte is a digit.
#[inline]
#[must_use]
pub fn is_digits(field: &[u8]) -> bool {
    field.iter().all(u8::is_ascii_digit)
}

/// Whether each byte is the space.
#[inline]
#[must_use]
pub fn is_blank<const N: usize>(field: &[u8; N]) -> bool {
    *field == [b' '; N]
}

/// Whether a number YYMMDD is a day that exists.
#[inline]
#[must_use]
pub const fn is_real_day(date: u32) -> bool {
    const LENGTHS: [u32; 13] = [0, 31, 28, 31, 30, 31, 30, 31, 31, 30, 31, 30, 31];
    let (year, month, day) = (date / 10_000, date / 100 % 100, date % 100);
    if date > 999_999 || month > 12 || day == 0 {
        return false;
    }
    day <= LENGTHS[month as usize] || (month == 2 && day == 29 && year % 4 == 0)
}

/// Whether `date` is `other` or after it; 82 is the first of the years.
#[inline]
#[must_use]
pub const fn not_before(date: u32, other: u32) -> bool {
    day_order(date) >= day_order(other)
}

const fn day_order(date: u32) -> u64 {
    // Dates before the year 82 are of the next century.
    if date >= 820_000 { date as u64 } else { date as u64 + (1 << 32) }
}

/// The side of an amount.
#[derive(Clone, Copy, Debug, PartialEq, Eq)]
pub enum Key {
    /// The key 1.
    Debit,
    /// The key 2.
    Credit,
}

impl Key {
    /// The key of a digit.
    #[inline]
    #[must_use]
    pub const fn from_digit(digit: u8) -> Option<Self> {
        match digit {
            1 => Some(Self::Debit),
            2 => Some(Self::Credit),
            _ => None,
        }
    }

    /// Its digit.
    #[inline]
    #[must_use]
    pub const fn digit(self) -> u8 {
        match self {
            Self::Debit => 1,
            Self::Credit => 2,
        }
    }

    /// An amount on this side: debits are negative.
    #[inline]
    #[must_use]
    pub const fn signed(self, amount: u64) -> i64 {
        match self {
            Self::Debit => (amount as i64).wrapping_neg(),
            Self::Credit => amount as i64,
        }
    }
}

/// Which fields the movements of an account have.
#[derive(Clone, Copy, Debug, PartialEq, Eq)]
pub enum Modality {
    /// Neither origin offices nor references.
    One,
    /// Origin offices.
    Two,
    /// Origin offices and references.
    Three,
}

impl Modality {
    /// The modality of a digit.
    #[inline]
    #[must_use]
    pub const fn from_digit(digit: u8) -> Option<Self> {
        match digit {
            1 => Some(Self::One),
            2 => Some(Self::Two),
            3 => Some(Self::Three),
            _ => None,
        }
    }

    /// Its digit.
    #[inline]
    #[must_use]
    pub const fn digit(self) -> u8 {
        match self {
            Self::One => 1,
            Self::Two => 2,
            Self::Three => 3,
        }
    }
}

/// Whether a code is one of the eleven currencies.
#[inline]
#[must_use]
pub const fn is_currency(code: u32) -> bool {
    matches!(code, 36 | 124 | 208 | 392 | 554 | 578 | 752 | 756 | 826 | 840 | 978)
}

/// Whether a code is one of the nineteen common concepts.
#[inline]
#[must_use]
pub const fn is_common_concept(code: u32) -> bool {
    matches!(code, 1..=17 | 98 | 99)
}

/// The check digit of eleven digits.
#[inline]
#[must_use]
pub fn check_digit(digits: &[u8; 11]) -> u8 {
    const WEIGHTS: [u16; 11] = [4, 3, 2, 9, 8, 7, 6, 5, 4, 3, 2];
    let weighted = digits.iter().zip(WEIGHTS);
    let sum: u16 = weighted.map(|(&digit, weight)| u16::from(digit & 15) * weight).sum();
    (sum % 11 % 10) as u8
}

/// Whether the last of twelve digits is the check digit of the others.
#[inline]
#[must_use]
pub fn is_reference(digits: &[u8; 12]) -> bool {
    match digits.split_first_chunk() {
        Some((eleven, last)) => last == [b'0' + check_digit(eleven)],
        None => false,
    }
}

#[cfg(test)]
mod tests {
    use super::*;

    #[test]
    fn numbers_read_as_they_are_written() {
        fn both<const N: usize>(text: &[u8; N]) {
            let number = read_number(text).expect("digits");
            assert_eq!(number.to_string().parse(), Ok(number));
            assert_eq!(format!("{number:0N$}").as_bytes(), text);
            let mut field = [0; N];
            assert!(write_number(&mut field, number));
            assert_eq!(&field, text);
        }
        both(b"7");
        both(b"0042");
        both(b"98765");
        both(b"260331");
        both(b"12345678");
        both(b"0987654321");
        both(b"99999999999999");
        both(b"1234567890123456");
    }

    #[test]
    fn each_other_byte_is_no_digit() {
        for byte in (0..=255u8).filter(|byte| !byte.is_ascii_digit()) {
            for place in 0..14 {
                let mut field = *b"90817263549081";
                field[place] = byte;
                assert_eq!(read_number(&field), None);
            }
            assert_eq!(read_number(&[b'1', byte]), None);
        }
    }

    #[test]
    fn numbers_that_are_too_wide_change_nothing() {
        let mut field = *b"abcd";
        assert!(!write_number(&mut field, 10_000));
        assert_eq!(&field, b"abcd");
        assert!(write_number(&mut field, 9_999));
        assert_eq!(&field, b"9999");
    }

    #[test]
    fn days_are_real_and_ordered() {
        let count = (0..1_100_000).filter(|&date| is_real_day(date)).count();
        assert_eq!(count, 36_525);
        assert!(is_real_day(229) && !is_real_day(10_229));
        assert!(not_before(811_231, 991_231) && !not_before(991_231, 811_231));
        assert!(not_before(114, 991_215) && not_before(5, 5) && !not_before(820_101, 811_231));
    }

    #[test]
    fn check_digits_are_remainders() {
        assert_eq!(check_digit(b"82546789013"), 8);
        assert_eq!(check_digit(b"00000000005"), 0);
        assert!(is_reference(b"825467890138") && !is_reference(b"825467890137"));
    }
}
