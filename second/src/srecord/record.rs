//! What a line is: a record, or a bad line and why.

/// The letter that every record begins with.
const LETTER: u8 = b'S';

/// The hex digits of a byte.
const PAIR: usize = 2;

/// The bytes of a record's checksum.
const CHECKSUM_BYTES: usize = 1;

/// What a record is, by its type digit.
#[derive(Clone, Copy, Debug, PartialEq, Eq)]
pub enum Kind {
    /// S0, the header.
    Header,
    /// S1, S2 or S3, which carry data.
    Data,
    /// S5, a number of records.
    Number,
    /// S7, S8 or S9, which end the file.
    Ending,
}

/// The types of records: the digit's value, what the record is, and how many bytes its address has.
pub const TYPES: [(u8, Kind, usize); 8] = [
    (0, Kind::Header, 2),
    (1, Kind::Data, 2),
    (2, Kind::Data, 3),
    (3, Kind::Data, 4),
    (5, Kind::Number, 2),
    (7, Kind::Ending, 4),
    (8, Kind::Ending, 3),
    (9, Kind::Ending, 2),
];

/// What makes a line bad, with the value of its type digit where it has one.
#[derive(Clone, Copy, Debug, PartialEq, Eq)]
pub enum Flaw {
    /// It has no character.
    Empty,
    /// It does not begin with S.
    Letter,
    /// No type digit follows.
    Type,
    /// Two hex digits of a count do not follow.
    Count(u8),
    /// The count has no room for address and checksum.
    Small(u8),
    /// The count has room for data, and the type carries none.
    Data(u8),
    /// It has fewer pairs than the count says.
    Cut(u8),
    /// It has more than the count says.
    Long(u8),
    /// A character of the pairs is no hex digit.
    Digit(u8),
    /// It stands after the ending record, a record itself or not.
    After(Option<u8>),
}

/// A line that is not bad.
#[derive(Clone, Copy, Debug, PartialEq, Eq)]
pub struct Record<'t> {
    pub kind: Kind,
    /// The type digit's value.
    pub digit: u8,
    /// The address as it is written, no shift added.
    pub address: u32,
    /// The hex digits of the data, as part of the text.
    pub data: &'t [u8],
    /// Whether the last byte is the checksum of the others.
    pub is_right: bool,
}

impl<'t> Record<'t> {
    /// Reads a line without its end, or tells the first flaw that makes it bad.
    pub fn read(line: &'t [u8]) -> Result<Record<'t>, Flaw> {
        let (letter, rest) = line.split_first().ok_or(Flaw::Empty)?;
        let flaw_unless = |holds: bool, flaw: Flaw| holds.then_some(()).ok_or(flaw);
        flaw_unless(*letter == LETTER, Flaw::Letter)?;
        let (digit, rest) = rest.split_first().ok_or(Flaw::Type)?;
        let mut types = TYPES.iter();
        let of_digit = types.find(|(value, _, _)| value + b'0' == *digit);
        let (digit, kind, address_bytes) = *of_digit.ok_or(Flaw::Type)?;
        let (count, pairs) = rest.split_first_chunk().ok_or(Flaw::Count(digit))?;
        let count = byte(*count).ok_or(Flaw::Count(digit))?;
        let least = address_bytes + CHECKSUM_BYTES;
        let carries = matches!(kind, Kind::Header | Kind::Data);
        flaw_unless(usize::from(count) >= least, Flaw::Small(digit))?;
        flaw_unless(carries || usize::from(count) == least, Flaw::Data(digit))?;
        let characters = usize::from(count) * PAIR;
        flaw_unless(pairs.len() >= characters, Flaw::Cut(digit))?;
        flaw_unless(pairs.len() <= characters, Flaw::Long(digit))?;
        let sum = sum(count, pairs).ok_or(Flaw::Digit(digit))?;
        let (address, pairs) = pairs.split_at(address_bytes * PAIR);
        let (data, _) = pairs.split_at(pairs.len() - CHECKSUM_BYTES * PAIR);
        Ok(Record {
            kind,
            digit,
            address: bytes(address).fold(0, |address, byte| address << u8::BITS | u32::from(byte)),
            data,
            is_right: sum == u8::MAX,
        })
    }

    /// The data bytes.
    pub fn bytes(&self) -> impl Iterator<Item = u8> + 't {
        bytes(self.data)
    }

    /// How many data bytes the record carries.
    pub fn count(&self) -> usize {
        self.data.len() / PAIR
    }
}

/// The low byte of the sum of the count and all pairs, 0xFF where the last of them is the ones'
/// complement of the others' sum; a pair that is no hex digits gives nothing.
fn sum(count: u8, pairs: &[u8]) -> Option<u8> {
    pairs.as_chunks().0.iter().try_fold(count, |sum, pair| Some(sum.wrapping_add(byte(*pair)?)))
}

/// The bytes of pairs that are known to be hex digits.
fn bytes(pairs: &[u8]) -> impl Iterator<Item = u8> + '_ {
    pairs.as_chunks().0.iter().filter_map(|pair| byte(*pair))
}

/// The byte of two hex digits, in either case.
fn byte(pair: [u8; PAIR]) -> Option<u8> {
    let [high, low] = pair.map(|digit| char::from(digit).to_digit(16));
    Some((high? << 4 | low?) as u8)
}
