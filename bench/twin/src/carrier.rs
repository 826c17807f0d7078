//! Carriers, which give records, and images, which take them.

use crate::charset::{CodeTable, RECORD_LENGTH, Record, first_foreign};

/// How a carrier ends that is damaged.
#[derive(Clone, Copy, Debug, PartialEq, Eq)]
pub struct Fault {
    /// Its number.
    pub number: u32,
    /// The place in bytes, from 0.
    pub place: u64,
    /// The volume, from 1.
    pub volume: u16,
}

/// How a carrier ends.
#[derive(Clone, Copy, Debug, PartialEq, Eq)]
pub enum Ending {
    /// With its last record.
    Clean,
    /// In a fault.
    Broken(Fault),
}

/// The answer to a draw.
#[derive(Clone, Copy, Debug, PartialEq, Eq)]
pub enum Drawn {
    /// A record was drawn.
    Record,
    /// None is left.
    Ended(Ending),
}

/// What gives the records of a holding, one after the other.
pub trait Carrier {
    /// Moves the first record left into `record`; with none left it tells the ending, and
    /// nothing changes.
    fn draw(&mut self, record: &mut Record) -> Drawn;

    /// The number of volumes, at least 1.
    fn volumes(&self) -> u16;

    /// This carrier and then another, as one.
    fn join<C: Carrier>(self, second: C) -> Joined<Self, C>
    where
        Self: Sized,
    {
        Joined { first: self, second, first_ended: false }
    }
}

/// How records stand in bytes.
#[derive(Clone, Copy, Debug, PartialEq, Eq)]
pub enum Framing {
    /// Each record is followed by the bytes 13 and 10.
    Lines,
    /// Records follow one another.
    Blocks,
}

const LINE_END: [u8; 2] = [13, 10];

impl Framing {
    /// How many bytes a record takes.
    #[inline]
    #[must_use]
    pub const fn stride(self) -> usize {
        match self {
            Self::Lines => RECORD_LENGTH + LINE_END.len(),
            Self::Blocks => RECORD_LENGTH,
        }
    }
}

/// A carrier over borrowed bytes.
pub struct Volume<'a> {
    bytes: &'a [u8],
    table: &'a CodeTable,
    framing: Framing,
    place: usize,
}

impl<'a> Volume<'a> {
    /// A volume at its first byte.
    #[must_use]
    pub const fn new(bytes: &'a [u8], table: &'a CodeTable, framing: Framing) -> Self {
        Self { bytes, table, framing, place: 0 }
    }

    /// A volume in lines.
    #[must_use]
    pub const fn lines(bytes: &'a [u8], table: &'a CodeTable) -> Self {
        Self::new(bytes, table, Framing::Lines)
    }

    /// A volume in blocks.
    #[must_use]
    pub const fn blocks(bytes: &'a [u8], table: &'a CodeTable) -> Self {
        Self::new(bytes, table, Framing::Blocks)
    }

    /// The record at the place, or the ending.
    #[inline]
    fn standing(&self) -> Result<Record, Ending> {
        let rest = &self.bytes[self.place..];
        if rest.is_empty() {
            return Err(Ending::Clean);
        }
        let Some(frame) = rest.get(..self.framing.stride()) else {
            return Err(self.fault(21, 0));
        };
        let Some((record, end)) = frame.split_first_chunk::<RECORD_LENGTH>() else {
            return Err(self.fault(21, 0));
        };
        if self.framing == Framing::Lines && end != LINE_END {
            return Err(self.fault(21, RECORD_LENGTH));
        }
        self.table.decode_record(record).map_err(|at| self.fault(22, at))
    }

    #[cold]
    fn fault(&self, number: u32, at: usize) -> Ending {
        Ending::Broken(Fault { number, place: (self.place + at) as u64, volume: 1 })
    }
}

impl Carrier for Volume<'_> {
    #[inline]
    fn draw(&mut self, record: &mut Record) -> Drawn {
        match self.standing() {
            Ok(standing) => {
                *record = standing;
                self.place += self.framing.stride();
                Drawn::Record
            }
            Err(ending) => Drawn::Ended(ending),
        }
    }

    fn volumes(&self) -> u16 {
        1
    }
}

/// Two carriers read as one, the second after the first.
pub struct Joined<A, B> {
    first: A,
    second: B,
    first_ended: bool,
}

impl<A: Carrier, B: Carrier> Joined<A, B> {
    fn draw_second(&mut self, record: &mut Record) -> Drawn {
        match self.second.draw(record) {
            Drawn::Ended(Ending::Broken(fault)) => {
                let volume = fault.volume.saturating_add(self.first.volumes());
                Drawn::Ended(Ending::Broken(Fault { volume, ..fault }))
            }
            drawn => drawn,
        }
    }
}

impl<A: Carrier, B: Carrier> Carrier for Joined<A, B> {
    #[inline]
    fn draw(&mut self, record: &mut Record) -> Drawn {
        if !self.first_ended {
            match self.first.draw(record) {
                Drawn::Ended(Ending::Clean) => self.first_ended = true,
                drawn => return drawn,
            }
        }
        self.draw_second(record)
    }

    fn volumes(&self) -> u16 {
        self.first.volumes().saturating_add(self.second.volumes())
    }
}

/// Why an image does not take what is put.
#[derive(Clone, Copy, Debug, PartialEq, Eq)]
pub enum PutRefusal {
    /// It is not 80 characters.
    NotARecord,
    /// No place is left.
    NoPlace,
}

impl PutRefusal {
    /// The number that is told.
    #[must_use]
    pub const fn number(self) -> u32 {
        match self {
            Self::NotARecord => 23,
            Self::NoPlace => 24,
        }
    }
}

/// Records written over lent bytes, from the first byte on.
pub struct Image<'a> {
    bytes: &'a mut [u8],
    table: &'a CodeTable,
    framing: Framing,
    written: usize,
}

impl<'a> Image<'a> {
    /// An image with nothing written.
    #[must_use]
    pub const fn new(bytes: &'a mut [u8], table: &'a CodeTable, framing: Framing) -> Self {
        Self { bytes, table, framing, written: 0 }
    }

    /// An image in lines.
    #[must_use]
    pub const fn lines(bytes: &'a mut [u8], table: &'a CodeTable) -> Self {
        Self::new(bytes, table, Framing::Lines)
    }

    /// An image in blocks.
    #[must_use]
    pub const fn blocks(bytes: &'a mut [u8], table: &'a CodeTable) -> Self {
        Self::new(bytes, table, Framing::Blocks)
    }

    /// How many bytes are written.
    #[must_use]
    pub const fn written(&self) -> usize {
        self.written
    }

    /// How many records it can still take.
    #[must_use]
    pub const fn places(&self) -> usize {
        (self.bytes.len() - self.written) / self.framing.stride()
    }

    /// Appends a record.
    ///
    /// # Errors
    /// The bytes are no record, or no place is left; nothing is written then.
    pub fn put(&mut self, bytes: &[u8]) -> Result<(), PutRefusal> {
        let record = bytes.try_into().map_err(|_| PutRefusal::NotARecord)?;
        if first_foreign(record).is_some() {
            return Err(PutRefusal::NotARecord);
        }
        self.append(record)
    }

    /// Appends 80 characters.
    #[inline]
    pub(crate) fn append(&mut self, record: &[u8; RECORD_LENGTH]) -> Result<(), PutRefusal> {
        let frame = self.bytes[self.written..].get_mut(..self.framing.stride());
        let Some((place, end)) = frame.and_then(<[u8]>::split_first_chunk_mut) else {
            return Err(PutRefusal::NoPlace);
        };
        self.table.encode_into(record, place);
        if self.framing == Framing::Lines {
            end.copy_from_slice(&LINE_END);
        }
        self.written += self.framing.stride();
        Ok(())
    }
}

#[cfg(test)]
mod tests {
    use super::*;
    use crate::charset::{PAGE_284, PAGE_850};

    fn drawn(carrier: &mut impl Carrier) -> (usize, Ending) {
        let (mut record, mut count) = (Record::blank(), 0);
        loop {
            match carrier.draw(&mut record) {
                Drawn::Record => count += 1,
                Drawn::Ended(ending) => return (count, ending),
            }
        }
    }

    fn broken(number: u32, place: u64, volume: u16) -> Ending {
        Ending::Broken(Fault { number, place, volume })
    }

    fn lines(records: usize) -> Vec<u8> {
        let line = [[b'A'; 80].as_slice(), &LINE_END].concat();
        line.repeat(records)
    }

    #[test]
    fn volumes_end_as_their_bytes_say() {
        let ending = |bytes: &[u8]| drawn(&mut Volume::lines(bytes, &PAGE_850));
        let mut bytes = lines(3);
        assert_eq!(ending(&[]), (0, Ending::Clean));
        assert_eq!(ending(&bytes), (3, Ending::Clean));
        assert_eq!(ending(&bytes[..245]), (2, broken(21, 164, 1)));
        bytes[82 + 7] = b'a';
        assert_eq!(ending(&bytes), (1, broken(22, 89, 1)));
        bytes[82 + 81] = 13;
        assert_eq!(ending(&bytes), (1, broken(21, 162, 1)));
        let blocks = [0xC1; 161];
        let mut tape = Volume::blocks(&blocks, &PAGE_284);
        assert_eq!(drawn(&mut tape), (2, broken(21, 160, 1)));
        assert_eq!(drawn(&mut tape), (0, broken(21, 160, 1)));
    }

    #[test]
    fn a_fault_leaves_the_callers_record() {
        let mut bytes = lines(2);
        bytes[82 + 79] = 0;
        let mut volume = Volume::lines(&bytes, &PAGE_850);
        let mut record = Record::blank();
        assert_eq!(volume.draw(&mut record), Drawn::Record);
        let before = record.clone();
        assert_eq!(volume.draw(&mut record), Drawn::Ended(broken(22, 161, 1)));
        assert_eq!(record, before);
    }

    #[test]
    fn joined_carriers_add_their_volumes() {
        let (good, bad) = (lines(2), lines(1)[..81].to_vec());
        let volume = |bytes| Volume::lines(bytes, &PAGE_850);
        let mut three = volume(&good).join(volume(&good)).join(volume(&bad));
        assert_eq!(three.volumes(), 3);
        assert_eq!(drawn(&mut three), (4, broken(21, 0, 3)));
        let mut nested = volume(&good).join(volume(&bad).join(volume(&good)));
        assert_eq!(drawn(&mut nested), (2, broken(21, 0, 2)));
        assert_eq!(drawn(&mut volume(&bad).join(volume(&good))), (0, broken(21, 0, 1)));
    }

    #[test]
    fn sums_of_volumes_stop_at_65535() {
        struct Many(u16, Ending);
        impl Carrier for Many {
            fn draw(&mut self, _: &mut Record) -> Drawn {
                Drawn::Ended(self.1)
            }
            fn volumes(&self) -> u16 {
                self.0
            }
        }
        let mut joined = Many(65_530, Ending::Clean).join(Many(9, broken(77, 5, 9)));
        assert_eq!(joined.volumes(), 65_535);
        assert_eq!(drawn(&mut joined), (0, broken(77, 5, 65_535)));
    }

    #[test]
    fn images_fill_up_and_keep_later_bytes() {
        let mut bytes = [7; 170];
        let mut image = Image::lines(&mut bytes, &PAGE_284);
        assert_eq!((image.places(), image.written()), (2, 0));
        assert_eq!(image.put(&[b'A'; 79]), Err(PutRefusal::NotARecord));
        assert_eq!(image.put(&[b'a'; 80]), Err(PutRefusal::NotARecord));
        assert_eq!(image.put(&[b'A'; 80]), Ok(()));
        assert_eq!((image.places(), image.written()), (1, 82));
        assert_eq!(image.put(&[b'A'; 80]), Ok(()));
        assert_eq!(image.put(&[b'a'; 80]), Err(PutRefusal::NotARecord));
        assert_eq!(image.put(&[b'A'; 80]), Err(PutRefusal::NoPlace));
        assert_eq!((image.places(), image.written()), (0, 164));
        assert_eq!(bytes[79..84], [0xC1, 13, 10, 0xC1, 0xC1]);
        assert_eq!(bytes[164..], [7; 6]);
    }
}
