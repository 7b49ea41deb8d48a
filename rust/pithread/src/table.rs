//! Loaded procedure files.

use std::fmt;

use pithread_header::{LINE_BYTES, STATE_BYTES, TABLE_BYTES};

use crate::{raw, Refusal};

/// Numbers in a row of a table, one for each field of a line.
pub const FIELDS: usize = 12;

/// The numbers of one line of a procedure file.
pub type Row = [i16; FIELDS];

/// The table of a procedure file: one row of twelve numbers for each line, then rows of zeros.
///
/// There is no other table than one that some file loads to.
///
/// ```
/// use pithread::Table;
///
/// let file = std::fs::read("../../examples/doubler.txt")?;
/// let table = Table::load(&file)?;
/// assert_eq!(table.ports(), 2);
/// assert_eq!(table.row(0), [1, 1, 2, 7, 6, 4, 2, 0, 0, 0, 0, 0]);
/// # Ok::<(), Box<dyn std::error::Error>>(())
/// ```
#[derive(Clone, PartialEq, Eq)]
pub struct Table {
    bytes: Box<[u8; TABLE_BYTES]>,
}

impl Table {
    /// Rows of a table, and lines of the longest file.
    pub const ROWS: usize = TABLE_BYTES / (2 * FIELDS);

    /// Checks a procedure file. The grounds of its refusal are 1 to 7.
    ///
    /// A card without bytes is a file too, and loads as a procedure that ends.
    ///
    /// ```
    /// use pithread::{Act, Bench, Rights, Seat, Table};
    ///
    /// let table = Table::load(b"")?;
    /// assert_eq!(table.write(), std::fs::read("../../examples/first/1.txt")?); // three lines
    ///
    /// let mut bench = Bench::start(table)?;
    /// assert_eq!(bench.at(&Rights::FULL, Seat::ALL[0]).step(0)?.act, Act::Ended);
    /// # Ok::<(), Box<dyn std::error::Error>>(())
    /// ```
    pub fn load(file: &[u8]) -> Result<Table, Refusal> {
        let mut bytes = Box::new([0; TABLE_BYTES]);
        let loaded = raw::load(file, &mut bytes[..]);
        Refusal::unless_done(loaded.refusal, loaded.line)?;
        Ok(Table { bytes })
    }

    /// A table that was kept as bytes. It is checked again: refused with ground 8 for another length and
    /// with ground 9 if no file has this table.
    pub fn from_bytes(bytes: &[u8]) -> Result<Table, Refusal> {
        let started = raw::start(bytes, &mut [0; STATE_BYTES]);
        Refusal::unless_done(started.refusal, 0)?;
        let bytes = Box::new(bytes.try_into().map_err(|_| Refusal::BufferLength)?);
        Ok(Table { bytes })
    }

    /// The bytes, to be kept: each number as two of them, the lower one first.
    pub fn as_bytes(&self) -> &[u8; TABLE_BYTES] {
        &self.bytes
    }

    /// The numbers of a line, counted from 0; zeros behind the last line.
    ///
    /// # Panics
    ///
    /// If the number of the row is not below [`Table::ROWS`].
    pub fn row(&self, row: usize) -> Row {
        let (numbers, _) = self.bytes.as_chunks::<2>();
        std::array::from_fn(|field| i16::from_le_bytes(numbers[row * FIELDS + field]))
    }

    /// How many lines the file has.
    pub fn lines(&self) -> usize {
        let counts = &self.row(0)[1..6];
        1 + counts.iter().map(|count| usize::from(count.unsigned_abs())).sum::<usize>()
    }

    /// How many ports the file has. Ports are the channels from 0 on.
    pub fn ports(&self) -> u32 {
        u32::from(self.row(0)[6].unsigned_abs())
    }

    /// The most threads that the procedure can come to have at one time, if it keeps to the rental-shop
    /// profile. Then no step from a start on is refused with ground 13, whatever calls there are, and no
    /// run ends with [`Reason::LackedThreadRow`](crate::Reason::LackedThreadRow). Refused with ground 16
    /// for a call that the profile forbids, and with ground 17 if the threads may come to be more than
    /// there are rows.
    ///
    /// ```
    /// use pithread::{Refusal, Table};
    ///
    /// let ring = Table::load(&std::fs::read("../../examples/ring_and_chain.txt")?)?;
    /// assert_eq!(ring.profile(), Ok(6));
    ///
    /// // It starts a thread for each number that is given, and calls itself for the next one.
    /// let workers = Table::load(&std::fs::read("../../examples/workers.txt")?)?;
    /// assert_eq!(workers.profile(), Err(Refusal::ForbiddenCall));
    /// # Ok::<(), Box<dyn std::error::Error>>(())
    /// ```
    pub fn profile(&self) -> Result<u32, Refusal> {
        let profiled = raw::profile(self.as_bytes());
        Refusal::unless_done(profiled.refusal, 0)?;
        Ok(profiled.threads.unsigned_abs())
    }

    /// The procedure file of the table. It loads to this table, and the table of a file gives that file
    /// again, byte for byte; only that of a file without bytes gives one of three lines.
    ///
    /// ```
    /// use pithread::{Table, FIELDS};
    ///
    /// let file = std::fs::read("../../examples/units.txt")?;
    /// let table = Table::load(&file)?;
    /// assert_eq!(table.write(), file);
    ///
    /// // A table may be edited as bytes. Line 55 has the limit of a guard in its fourth field, 100.
    /// let mut bytes = table.as_bytes().to_vec();
    /// let place = 2 * (FIELDS * 54 + 3);
    /// bytes[place..place + 2].copy_from_slice(&i16::to_le_bytes(-300));
    /// let edited = Table::from_bytes(&bytes)?.write();
    /// assert_eq!(edited[73 * 54..][..24], *b"     6     2     2  -300");
    /// # Ok::<(), Box<dyn std::error::Error>>(())
    /// ```
    pub fn write(&self) -> Vec<u8> {
        let mut file = Vec::new();
        self.append_to(&mut file);
        file
    }

    /// Writes the procedure file behind what the vector has already, which stays.
    pub fn append_to(&self, bytes: &mut Vec<u8>) {
        let before = bytes.len();
        let length = LINE_BYTES * self.lines();
        bytes.resize(before + length, 0);
        let written = self.write_into(&mut bytes[before..]);
        assert_eq!(written, Ok(length), "a table has a file of as many lines as its header counts");
    }

    /// Writes the procedure file to the front of a buffer, and answers how many bytes it has. The bytes of
    /// the buffer behind it stay as they were. Refused with ground 15 if the buffer is shorter than the file;
    /// then all of them do.
    pub fn write_into(&self, buffer: &mut [u8]) -> Result<usize, Refusal> {
        let written = raw::write(self.as_bytes(), buffer);
        Refusal::unless_done(written.refusal, 0)?;
        Ok(usize::try_from(written.bytes).expect("the length of a file is not negative"))
    }
}

impl fmt::Debug for Table {
    fn fmt(&self, formatter: &mut fmt::Formatter) -> fmt::Result {
        formatter.debug_struct("Table").field("header", &self.row(0)).finish_non_exhaustive()
    }
}
