//! Sheet reading: the bytes are parted into lines and fields in one pass from
//! the left. Nothing is judged here but what parting itself shows: a missing
//! line end (3) and an unknown first field (4).

use std::ops::RangeInclusive;

use crate::refusals::Fault;

pub const MOST_BYTES: usize = 65_536;
pub const MOST_LINES: u32 = 4_096;

/// Fields after the first that any kind of line may have.
pub const MOST_FIELDS: usize = 8;

/// Up to this many digits a number surely fits in 64 bits.
const SURE_DIGITS: usize = 19;

#[derive(Clone, Copy, Debug, PartialEq, Eq)]
pub enum Kind {
    Process,
    Stream,
    Heat,
    Gas,
    Power,
    Bought,
    Good,
    PrecursorFigures,
    PrecursorUse,
}

impl Kind {
    #[inline]
    pub fn of(letter: u8) -> Option<Kind> {
        Some(match letter {
            b'P' => Kind::Process,
            b'S' => Kind::Stream,
            b'H' => Kind::Heat,
            b'W' => Kind::Gas,
            b'E' => Kind::Power,
            b'B' => Kind::Bought,
            b'G' => Kind::Good,
            b'K' => Kind::PrecursorFigures,
            b'N' => Kind::PrecursorUse,
            _ => return None,
        })
    }

    /// Fields that stand after the first.
    pub fn field_count(self) -> usize {
        match self {
            Kind::Process => 2,
            Kind::Stream => 8,
            Kind::Heat | Kind::Power | Kind::Bought | Kind::PrecursorFigures => 4,
            Kind::Gas | Kind::Good | Kind::PrecursorUse => 3,
        }
    }
}

/// A field as one word: a number, or one of three marks above all numbers
/// that any range holds.
#[derive(Clone, Copy, Debug, PartialEq, Eq, PartialOrd, Ord)]
pub struct Field(u64);

impl Field {
    /// The single byte `-`. A record has the same word for it.
    pub const DASH: Field = Field(u64::MAX);
    /// Neither a number nor `-`. No record has such a field.
    pub const OTHER: Field = Field(u64::MAX - 1);
    /// A number of 20 digits or more.
    const LONG_NUMBER: Field = Field(u64::MAX - 2);

    /// The field that a record's word spells. A number so large that it has the
    /// word of a mark has 20 digits and goes to the mark of long numbers.
    #[inline]
    pub fn of_word(word: u64) -> Field {
        match Field(word) {
            Field::DASH => Field::DASH,
            number => number.min(Field::LONG_NUMBER),
        }
    }

    /// The word that a record has for a number in its range or `-`.
    #[inline]
    pub const fn word(self) -> u64 {
        self.0
    }

    /// The number if it is in the range, which must end below the marks.
    #[inline]
    pub fn within(self, range: RangeInclusive<u64>) -> Option<u64> {
        range.contains(&self.0).then_some(self.0)
    }

    pub fn is_number(self) -> bool {
        self <= Field::LONG_NUMBER
    }
}

/// Fields after the first. Only as many as the line has are of that line.
pub type Fields = [Field; MOST_FIELDS];

/// A line, its fields apart.
#[derive(Clone, Copy, Debug, PartialEq, Eq)]
pub struct Line {
    pub kind: Kind,
    /// Fields after the first, even past `MOST_FIELDS`.
    pub count: usize,
    /// Bytes of the line with its LF.
    pub length: usize,
}

/// Reads the line at the start of `bytes`; its fields after the first go to
/// `fields`, those past `MOST_FIELDS` are not kept.
#[inline(always)]
pub fn read_line(bytes: &[u8], fields: &mut Fields) -> Result<Line, Fault> {
    let kind = match bytes {
        [letter, b',' | b'\n', ..] => Kind::of(*letter),
        _ => None,
    };
    let Some(kind) = kind else {
        return Err(if bytes.contains(&b'\n') {
            Fault::UnknownKind
        } else {
            Fault::NoLineEnd
        });
    };
    let mut count = 0;
    let mut at = 1;
    while let Some(b',') = bytes.get(at) {
        let (field, length) = read_field(&bytes[at + 1..]);
        if let Some(place) = fields.get_mut(count) {
            *place = field;
        }
        count += 1;
        at += 1 + length;
    }
    if at == bytes.len() {
        return Err(Fault::NoLineEnd);
    }
    Ok(Line {
        kind,
        count,
        length: at + 1,
    })
}

/// Reads the field at the start of `bytes`, up to a comma, an LF or the end.
/// Gives the field and its length.
#[inline]
fn read_field(bytes: &[u8]) -> (Field, usize) {
    let mut value = 0u64;
    let mut length = 0;
    let stop = loop {
        let Some(&byte) = bytes.get(length) else {
            break None;
        };
        let digit = byte.wrapping_sub(b'0');
        if digit > 9 {
            break Some(byte);
        }
        value = value.wrapping_mul(10).wrapping_add(u64::from(digit));
        length += 1;
    };
    if length == 0 || !matches!(stop, None | Some(b',' | b'\n')) {
        return read_other(bytes, length);
    }
    let field = if bytes[0] == b'0' && length > 1 {
        Field::OTHER
    } else if length > SURE_DIGITS {
        Field::LONG_NUMBER
    } else {
        Field(value)
    };
    (field, length)
}

/// The rest of a field that is no number; its first `from` bytes are digits.
fn read_other(bytes: &[u8], from: usize) -> (Field, usize) {
    let length = bytes[from..]
        .iter()
        .position(|byte| matches!(byte, b',' | b'\n'))
        .map_or(bytes.len(), |more| from + more);
    let field = if &bytes[..length] == b"-" {
        Field::DASH
    } else {
        Field::OTHER
    };
    (field, length)
}

/// Line `number` of the sheet, the first being 1, without its LF. Line 0 and
/// lines past the end are empty.
pub fn line_at(sheet: &[u8], number: u32) -> &[u8] {
    match number.checked_sub(1) {
        Some(before) => sheet
            .split(|byte| *byte == b'\n')
            .nth(before as usize)
            .unwrap_or_default(),
        None => &[],
    }
}
