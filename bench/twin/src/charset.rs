//! The 57 characters, records of 80 of them, and code tables.

/// The width of a record.
pub const RECORD_LENGTH: usize = 80;

/// How many characters there are.
pub const CHARACTER_COUNT: usize = 57;

/// The characters in their fixed order, as bytes of code page 850.
pub const CHARACTERS: [u8; CHARACTER_COUNT] =
    *b" 0123456789ABCDEFGHIJKLMNOPQRSTUVWXYZ\xA5.<(+&*);-/,%_>?:'=\"";

/// The bytes of the characters in EBCDIC page 284, in the same order.
const BYTES_284: [u8; CHARACTER_COUNT] = [
    0x40, // space
    0xF0, 0xF1, 0xF2, 0xF3, 0xF4, 0xF5, 0xF6, 0xF7, 0xF8, 0xF9, // 0 to 9
    0xC1, 0xC2, 0xC3, 0xC4, 0xC5, 0xC6, 0xC7, 0xC8, 0xC9, // A to I
    0xD1, 0xD2, 0xD3, 0xD4, 0xD5, 0xD6, 0xD7, 0xD8, 0xD9, // J to R
    0xE2, 0xE3, 0xE4, 0xE5, 0xE6, 0xE7, 0xE8, 0xE9, // S to Z
    0x7B, // Ñ
    0x4B, 0x4C, 0x4D, 0x4E, 0x50, // . < ( + &
    0x5C, 0x5D, 0x5E, 0x60, 0x61, // * ) ; - /
    0x6B, 0x6C, 0x6D, 0x6E, 0x6F, // , % _ > ?
    0x7A, 0x7D, 0x7E, 0x7F, // : ' = "
];

/// Page 850: each character is its own byte.
pub static PAGE_850: CodeTable = CodeTable::of(&CHARACTERS);

/// EBCDIC page 284.
pub static PAGE_284: CodeTable = CodeTable::of(&BYTES_284);

/// Whether a byte is one of the characters. Without branches, so that a loop over it becomes
/// vector code.
#[inline]
#[must_use]
pub const fn is_character(byte: u8) -> bool {
    (byte == b' ')
        | (byte == b'"')
        | within(byte, b'%', b'?')
        | within(byte, b'A', b'Z')
        | (byte == b'_')
        | (byte == 0xA5)
}

#[inline]
const fn within(byte: u8, first: u8, last: u8) -> bool {
    byte.wrapping_sub(first) <= last - first
}

/// The place of the first byte that is no character.
#[inline]
#[must_use]
pub fn first_foreign(bytes: &[u8; RECORD_LENGTH]) -> Option<usize> {
    if bytes.iter().fold(true, |all, &byte| all & is_character(byte)) {
        return None;
    }
    bytes.iter().position(|&byte| !is_character(byte))
}

/// Eighty characters. No other value can be made.
#[derive(Clone, Debug, PartialEq, Eq)]
pub struct Record([u8; RECORD_LENGTH]);

impl Record {
    /// A record of spaces.
    #[must_use]
    pub const fn blank() -> Self {
        Self([b' '; RECORD_LENGTH])
    }

    /// The record of these bytes.
    ///
    /// # Errors
    /// The place of the first byte that is no character.
    #[inline]
    pub fn new(bytes: &[u8; RECORD_LENGTH]) -> Result<Self, usize> {
        match first_foreign(bytes) {
            None => Ok(Self(*bytes)),
            Some(place) => Err(place),
        }
    }

    /// Its characters.
    #[inline]
    #[must_use]
    pub const fn bytes(&self) -> &[u8; RECORD_LENGTH] {
        &self.0
    }
}

/// Why a list makes no code table.
#[derive(Clone, Copy, Debug, PartialEq, Eq)]
pub enum CodeTableRefusal {
    /// The list is not 57 bytes long.
    Length,
    /// The byte at this place equals an earlier one.
    Repeat(usize),
}

impl CodeTableRefusal {
    /// The number that is told.
    #[must_use]
    pub const fn number(self) -> u32 {
        match self {
            Self::Length => 26,
            Self::Repeat(_) => 25,
        }
    }
}

/// Which byte stands for each character on a volume, and which character a byte reads as.
pub struct CodeTable {
    /// By byte; 0, which is no character, where the byte reads as none.
    characters: [u8; 256],
    /// By character; 0 where there is none.
    bytes: [u8; 256],
    /// Each character is its own byte.
    plain: bool,
}

impl CodeTable {
    /// The code table of a list of bytes, one for each character.
    ///
    /// # Errors
    /// The list has another length, or a byte twice.
    pub fn make(list: &[u8]) -> Result<Self, CodeTableRefusal> {
        let list = list.try_into().map_err(|_| CodeTableRefusal::Length)?;
        match first_repeat(list) {
            None => Ok(Self::of(list)),
            Some(place) => Err(CodeTableRefusal::Repeat(place)),
        }
    }

    const fn of(list: &[u8; CHARACTER_COUNT]) -> Self {
        let mut table = Self { characters: [0; 256], bytes: [0; 256], plain: true };
        let mut at = 0;
        while at < CHARACTER_COUNT {
            let (character, byte) = (CHARACTERS[at], list[at]);
            table.characters[byte as usize] = character;
            table.bytes[character as usize] = byte;
            table.plain &= byte == character;
            at += 1;
        }
        table
    }

    /// The character that a byte reads as.
    #[inline]
    #[must_use]
    pub fn decode(&self, byte: u8) -> Option<u8> {
        let character = self.characters[usize::from(byte)];
        (character != 0).then_some(character)
    }

    /// The byte that a character is written as.
    #[inline]
    #[must_use]
    pub fn encode(&self, character: u8) -> Option<u8> {
        is_character(character).then(|| self.bytes[usize::from(character)])
    }

    /// The record that 80 bytes read as.
    ///
    /// # Errors
    /// The place of the first byte that reads as no character.
    #[inline]
    pub fn decode_record(&self, bytes: &[u8; RECORD_LENGTH]) -> Result<Record, usize> {
        if self.plain {
            return Record::new(bytes);
        }
        let characters = bytes.map(|byte| self.characters[usize::from(byte)]);
        if characters.contains(&0) {
            return Err(characters.iter().position(|&character| character == 0).unwrap_or(0));
        }
        Ok(Record(characters))
    }

    /// Writes 80 characters as their bytes.
    #[inline]
    pub(crate) fn encode_into(
        &self,
        characters: &[u8; RECORD_LENGTH],
        out: &mut [u8; RECORD_LENGTH],
    ) {
        *out = if self.plain {
            *characters
        } else {
            characters.map(|character| self.bytes[usize::from(character)])
        };
    }
}

fn first_repeat(list: &[u8; CHARACTER_COUNT]) -> Option<usize> {
    let mut seen = [false; 256];
    list.iter().position(|&byte| std::mem::replace(&mut seen[usize::from(byte)], true))
}

#[cfg(test)]
mod tests {
    use super::*;

    #[test]
    fn characters_are_those_of_the_list() {
        for byte in 0..=255 {
            assert_eq!(is_character(byte), CHARACTERS.contains(&byte), "{byte}");
        }
    }

    #[test]
    fn tables_read_back_what_they_write() {
        for table in [&PAGE_850, &PAGE_284] {
            let readable = (0..=255).filter(|&byte| table.decode(byte).is_some());
            assert_eq!(readable.count(), CHARACTER_COUNT);
            for character in 0..=255 {
                let byte = table.encode(character);
                assert_eq!(byte.is_some(), is_character(character));
                assert!(byte.is_none_or(|byte| table.decode(byte) == Some(character)));
            }
        }
    }

    #[test]
    fn lists_are_refused_by_length_and_then_by_repeat() {
        let number = |list: &[u8]| CodeTable::make(list).err();
        assert_eq!(number(&[1; 56]), Some(CodeTableRefusal::Length));
        assert_eq!(number(&[1; 57]), Some(CodeTableRefusal::Repeat(1)));
        let mut list = CHARACTERS;
        list[50] = list[3];
        list[55] = list[2];
        assert_eq!(number(&list), Some(CodeTableRefusal::Repeat(50)));
        assert_eq!(CodeTableRefusal::Repeat(50).number(), 25);
        assert_eq!(CodeTableRefusal::Length.number(), 26);
    }

    #[test]
    fn a_table_may_use_the_byte_0() {
        let list: Vec<u8> = (0..57).collect();
        let table = CodeTable::make(&list).expect("a table");
        assert_eq!(table.encode(b' '), Some(0));
        assert_eq!(table.decode(0), Some(b' '));
        assert_eq!(table.encode(0), None);
        assert_eq!(table.decode(57), None);
    }
}
