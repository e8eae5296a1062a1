//! Values: "an optional + or -, digits, an optional point and digits; all may
//! be absent."

/// Four places are kept, so a number is held in ten-thousandths.
pub const ONE: i64 = 10_000;
/// "A size over 32,767 becomes 32,767."
pub const LARGEST: i64 = 32_767 * ONE;

#[derive(Clone, Copy, PartialEq, Eq, Debug)]
pub enum Sign {
    None,
    Plus,
    Minus,
}

/// The value of a command.
#[derive(Clone, Copy, PartialEq, Eq, Debug)]
pub struct Value {
    pub sign: Sign,
    /// The size in ten-thousandths, without sign, at most [`LARGEST`].
    pub size: i64,
}

impl Value {
    /// A command without any value: "No digits is 0."
    pub const NONE: Value = Value {
        sign: Sign::None,
        size: 0,
    };

    /// "A sign makes it relative, also before 0."
    pub fn is_relative(&self) -> bool {
        self.sign != Sign::None
    }

    /// The number with its sign, in ten-thousandths.
    pub fn signed(&self) -> i64 {
        match self.sign {
            Sign::Minus => -self.size,
            Sign::None | Sign::Plus => self.size,
        }
    }

    /// The whole part with its sign: -0.5 is 0.
    pub fn whole(&self) -> i64 {
        // Division of whole numbers cuts toward zero.
        self.signed() / ONE
    }

    /// "Displacement = value x unit, cut toward zero."
    pub fn displacement(&self, unit: i64) -> i64 {
        self.signed() * unit / ONE
    }
}

/// Reads the value at the start of `bytes`: gives it and how many bytes it
/// takes, maybe none. What follows is for the caller to judge.
pub fn read_value(bytes: &[u8]) -> (Value, usize) {
    let (sign, mut place) = match bytes.first() {
        Some(b'+') => (Sign::Plus, 1),
        Some(b'-') => (Sign::Minus, 1),
        _ => (Sign::None, 0),
    };
    let mut whole: i64 = 0;
    while let Some(digit) = digit_at(bytes, place) {
        // Anything over 32,767 is lowered in the end, so the sum may stop
        // growing far above that: long numbers must not overflow.
        whole = (whole * 10 + digit).min(1_000_000);
        place += 1;
    }
    let mut fraction: i64 = 0;
    if bytes.get(place) == Some(&b'.') {
        place += 1;
        let mut worth = ONE / 10;
        while let Some(digit) = digit_at(bytes, place) {
            // "kept to four places, further digits dropped": worth is 0 then.
            fraction += digit * worth;
            worth /= 10;
            place += 1;
        }
    }
    // The four places come first, the comparison of size after them.
    let size = (whole * ONE + fraction).min(LARGEST);
    (Value { sign, size }, place)
}

fn digit_at(bytes: &[u8], place: usize) -> Option<i64> {
    match bytes.get(place) {
        Some(&byte @ b'0'..=b'9') => Some(i64::from(byte - b'0')),
        _ => None,
    }
}

/// The shortest text of a size in ten-thousandths: "no leading zeros but one
/// before a point, no trailing zeros after it, no bare point".
pub fn write_size(size: i64) -> String {
    let (whole, fraction) = (size / ONE, size % ONE);
    if fraction == 0 {
        return whole.to_string();
    }
    let places = format!("{fraction:04}");
    format!("{whole}.{}", places.trim_end_matches('0'))
}

/// "A relative position has its sign, + for zero."
pub fn write_position(value: &Value) -> String {
    let size = write_size(value.size);
    match value.sign {
        Sign::None => size,
        Sign::Minus if value.size > 0 => format!("-{size}"),
        Sign::Minus | Sign::Plus => format!("+{size}"),
    }
}
