use crate::raw::{self, Buffers};
use crate::{PowerUp, Refusal};
use std::fmt;
use std::ops::RangeInclusive;

/// How many sectors a partition has, and how many bytes a sector. It is within the rules: 2 to 512 sectors; a size from 256 to 131,072
/// that is a multiple of 256; and the trailer, a status byte and half a byte for each sector before it, rounded up, fits one sector:
/// 512 sectors of 256 bytes are refused, 511 are not.
#[derive(Clone, Copy, Debug, PartialEq, Eq)]
pub struct Geometry {
    sectors: usize,
    size: usize,
}

impl Geometry {
    /// The fewest sectors of a partition, and the most.
    pub const SECTORS: RangeInclusive<usize> = 2..=512;
    /// The fewest bytes of a sector, and the most.
    pub const SIZES: RangeInclusive<usize> = 256..=131_072;
    /// A sector's size is a multiple of it.
    pub const SIZE_UNIT: usize = 256;

    /// The geometry of so many sectors of this size.
    ///
    /// Refused with 1 outside the rules.
    pub fn new(sectors: usize, size: usize) -> Result<Geometry, Refusal> {
        let within = Self::SECTORS.contains(&sectors) && Self::SIZES.contains(&size) && size % Self::SIZE_UNIT == 0;
        // Half of the sectors before the trailer's, rounded up, is half of all, rounded down.
        let trailer = 1 + sectors / 2;
        if within && trailer <= size {
            Ok(Geometry { sectors, size })
        } else {
            Err(Refusal::new(1, 0))
        }
    }

    /// The sectors of a partition, its trailer sector counted.
    pub fn sectors(self) -> usize {
        self.sectors
    }

    /// The bytes of a sector.
    pub fn size(self) -> usize {
        self.size
    }

    /// The sectors that hold an image: all but the last.
    pub fn firmware_sectors(self) -> usize {
        self.sectors - 1
    }

    /// The bytes of a partition.
    pub fn partition(self) -> usize {
        self.sectors * self.size
    }

    /// The erase counts of a flash: one for each sector of BOOT, then for each of UPDATE, then for SWAP.
    pub fn row_length(self) -> usize {
        2 * self.sectors + 1
    }
}

/// The status byte of a partition, its last byte.
#[derive(Clone, Copy, Debug, PartialEq, Eq)]
pub enum Status {
    /// FF: nothing is going on (BOOT and UPDATE).
    New,
    /// 70: an update is armed or under way (UPDATE).
    Updating,
    /// 10: the image runs on test (BOOT).
    Testing,
    /// 00: the image was confirmed (BOOT).
    Success,
    /// Another byte, which no call leaves.
    Other(u8),
}

impl Status {
    /// The status that a byte stands for.
    pub fn of(byte: u8) -> Status {
        match byte {
            0xFF => Status::New,
            0x70 => Status::Updating,
            0x10 => Status::Testing,
            0x00 => Status::Success,
            other => Status::Other(other),
        }
    }

    /// The byte that stands for it.
    pub fn byte(self) -> u8 {
        match self {
            Status::New => 0xFF,
            Status::Updating => 0x70,
            Status::Testing => 0x10,
            Status::Success => 0x00,
            Status::Other(byte) => byte,
        }
    }
}

impl fmt::Display for Status {
    fn fmt(&self, f: &mut fmt::Formatter<'_>) -> fmt::Result {
        match self {
            Status::New => f.write_str("NEW"),
            Status::Updating => f.write_str("UPDATING"),
            Status::Testing => f.write_str("TESTING"),
            Status::Success => f.write_str("SUCCESS"),
            Status::Other(byte) => write!(f, "{byte:02X}"),
        }
    }
}

/// How far a firmware sector's exchange has come.
#[derive(Clone, Copy, Debug, PartialEq, Eq)]
pub enum Flag {
    /// F: not yet begun.
    Untouched,
    /// 7: UPDATE's sector is in SWAP.
    Saved,
    /// 3: and BOOT's is in UPDATE.
    Moved,
    /// 0: and UPDATE's is in BOOT.
    Exchanged,
    /// Another value, which no exchange leaves.
    Other(u8),
}

impl Flag {
    fn of(half: u8) -> Flag {
        match half {
            0xF => Flag::Untouched,
            0x7 => Flag::Saved,
            0x3 => Flag::Moved,
            0x0 => Flag::Exchanged,
            other => Flag::Other(other),
        }
    }
}

impl fmt::Display for Flag {
    fn fmt(&self, f: &mut fmt::Formatter<'_>) -> fmt::Result {
        match self {
            Flag::Untouched => f.write_str("F"),
            Flag::Saved => f.write_str("7"),
            Flag::Moved => f.write_str("3"),
            Flag::Exchanged => f.write_str("0"),
            Flag::Other(half) => write!(f, "{half:X}"),
        }
    }
}

/// Where an exchange stands: this sector has this flag, F, 7 or 3; the sectors before it have 0, and those behind it F. One more mark
/// is all 0: its sector is the number of firmware sectors, and its flag 0.
#[derive(Clone, Copy, Debug, PartialEq, Eq)]
pub struct Mark {
    /// The sector.
    pub sector: usize,
    /// Its flag.
    pub flag: Flag,
}

impl Mark {
    /// Whether it is the mark that is all 0: every firmware sector is exchanged.
    pub fn is_all_exchanged(self) -> bool {
        self.flag == Flag::Exchanged
    }
}

/// What mending did.
#[derive(Clone, Copy, Debug, PartialEq, Eq)]
pub struct Mended {
    /// The mark whose flags stand in UPDATE now.
    pub mark: Mark,
    /// How many of the bytes that hold flags differ from before.
    pub bytes: u64,
}

/// The flash: BOOT, UPDATE and SWAP, in buffers that are lent.
///
/// A store to them stands for an operation of the flash, and it is the user's part that it becomes one.
///
/// ```
/// use tainhosa::{Flag, Flash, Geometry, Outcome, Sheet, Status};
///
/// let geometry = Geometry::new(3, 256)?;
/// let partition = |version| {
///     let sheet = Sheet { version, timestamp: 0, auth_type: 0, signature: [0; 64], hint: None };
///     let firmware = [version as u8; 200];
///     let mut bytes = [&sheet.make_header(&firmware)?[..], &firmware].concat();
///     bytes.resize(geometry.partition(), 0xFF);
///     Ok::<_, tainhosa::Refusal>(bytes)
/// };
/// let (mut boot, mut update, mut swap) = (partition(7)?, partition(8)?, [0; 256]);
/// let mut flash = Flash::new(geometry, &mut boot, &mut update, &mut swap)?;
///
/// assert_eq!(flash.arm()?, 2);
/// assert_eq!(flash.power_up_within(5).outcome, Outcome::Cut);
/// assert_eq!(flash.flags(), [Flag::Saved, Flag::Untouched]);
/// assert_eq!(flash.power_up().outcome, Outcome::RunOnTest);
/// assert_eq!(flash.confirm()?, 1);
/// assert_eq!(flash.boot_status(), Status::Success);
/// assert_eq!(flash.confirm().unwrap_err().number, 14);
/// # Ok::<(), tainhosa::Refusal>(())
/// ```
#[derive(Debug)]
pub struct Flash<'a> {
    geometry: Geometry,
    boot: &'a mut [u8],
    update: &'a mut [u8],
    swap: &'a mut [u8],
}

impl<'a> Flash<'a> {
    /// The flash in these buffers.
    ///
    /// Refused with 1 unless BOOT and UPDATE have the length of a partition, and SWAP that of a sector.
    pub fn new(geometry: Geometry, boot: &'a mut [u8], update: &'a mut [u8], swap: &'a mut [u8]) -> Result<Flash<'a>, Refusal> {
        let fits = boot.len() == geometry.partition() && update.len() == geometry.partition() && swap.len() == geometry.size();
        if fits {
            Ok(Flash { geometry, boot, update, swap })
        } else {
            Err(Refusal::new(1, 0))
        }
    }

    fn buffers(&mut self) -> Buffers<'_> {
        Buffers { boot: self.boot, update: self.update, swap: self.swap }
    }

    /// The geometry.
    pub fn geometry(&self) -> Geometry {
        self.geometry
    }

    /// BOOT's bytes.
    pub fn boot(&self) -> &[u8] {
        self.boot
    }

    /// UPDATE's bytes.
    pub fn update(&self) -> &[u8] {
        self.update
    }

    /// BOOT's status.
    pub fn boot_status(&self) -> Status {
        Status::of(self.boot[self.geometry.partition() - 1])
    }

    /// UPDATE's status.
    pub fn update_status(&self) -> Status {
        Status::of(self.update[self.geometry.partition() - 1])
    }

    /// The flags of the firmware sectors, from sector 0 on.
    pub fn flags(&self) -> Vec<Flag> {
        let flag = |i: usize| {
            let byte = self.update[self.geometry.partition() - 2 - i / 2];
            Flag::of(if i % 2 == 0 { byte & 0xF } else { byte >> 4 })
        };
        (0..self.geometry.firmware_sectors()).map(flag).collect()
    }

    /// The bytes of UPDATE that hold the flags, that of sectors 0 and 1 first: they stand from the partition's end down.
    pub fn flag_bytes(&self) -> Vec<u8> {
        let count = (self.geometry.firmware_sectors() + 1) / 2;
        self.update.iter().rev().skip(1).take(count).copied().collect()
    }

    /// Arms the update in UPDATE, for the next power-up to take or turn down. The operations done: 2.
    ///
    /// Refused with 10 or 14; then no byte changes.
    pub fn arm(&mut self) -> Result<u64, Refusal> {
        let (sectors, size) = (self.geometry.sectors, self.geometry.size);
        let mut count = [0];
        let answer = raw::arm(sectors, size, self.buffers(), &mut count);
        counted(answer, count)
    }

    /// What is to be done when power comes on. Where power is lost in between, the next one goes on from what the flash shows.
    pub fn power_up(&mut self) -> PowerUp {
        self.power_up_within(u64::MAX)
    }

    /// The same with at most so many operations: for tests, which see in it a loss of power.
    pub fn power_up_within(&mut self, budget: u64) -> PowerUp {
        let (sectors, size) = (self.geometry.sectors, self.geometry.size);
        let mut row = [0; 6];
        let answer = raw::power_up(sectors, size, self.buffers(), budget, &mut row);
        PowerUp::of(answer, row)
    }

    /// Keeps the image that runs on test. The operations done: 1.
    ///
    /// Refused with 10, 14 or 11; then no byte changes.
    pub fn confirm(&mut self) -> Result<u64, Refusal> {
        let (sectors, size) = (self.geometry.sectors, self.geometry.size);
        let mut count = [0];
        let answer = raw::confirm(sectors, size, self.buffers(), &mut count);
        counted(answer, count)
    }

    /// Writes the flags of an update again, where they were spoiled: those of the first mark under which the images of before the
    /// update are both good, and UPDATE's is the newer one. The flags that stand there are not read, and nothing else is written.
    ///
    /// The mark may be one move back from where the exchange had come to, and that move is then done again. Where both images end
    /// before a sector that was exchanged, an earlier sector may be given: what stood behind both images is then exchanged back, or
    /// lost.
    ///
    /// Refused with 10, 14 (UPDATE is not UPDATING, or BOOT is TESTING) or 17 (no mark fits); then no byte changes.
    ///
    /// ```
    /// # use tainhosa::{Flag, Flash, Geometry, Mark, Mended, Outcome, Sheet};
    /// # let geometry = Geometry::new(3, 256)?;
    /// # let partition = |version| {
    /// #     let sheet = Sheet { version, timestamp: 0, auth_type: 0, signature: [0; 64], hint: None };
    /// #     let firmware = [version as u8; 200];
    /// #     let mut bytes = [&sheet.make_header(&firmware)?[..], &firmware].concat();
    /// #     bytes.resize(geometry.partition(), 0xFF);
    /// #     Ok::<_, tainhosa::Refusal>(bytes)
    /// # };
    /// # let (mut boot, mut update, mut swap) = (partition(7)?, partition(8)?, [0; 256]);
    /// # let mut flash = Flash::new(geometry, &mut boot, &mut update, &mut swap)?;
    /// # flash.arm()?;
    /// # flash.power_up_within(4);
    /// # update[766] = 0x5A;
    /// # let mut flash = Flash::new(geometry, &mut boot, &mut update, &mut swap)?;
    /// // An exchange lost power when sector 0 of UPDATE was in SWAP and erased, and then its flags were spoiled.
    /// assert_eq!(flash.flag_bytes(), [0x5A]);
    /// assert!(matches!(flash.power_up().outcome, Outcome::Refused(refusal) if refusal.number == 11));
    ///
    /// let mark = Mark { sector: 0, flag: Flag::Saved };
    /// assert_eq!(flash.mend()?, Mended { mark, bytes: 1 });
    /// assert_eq!(flash.flags(), [Flag::Saved, Flag::Untouched]);
    /// assert_eq!(flash.mend()?, Mended { mark, bytes: 0 });
    /// assert_eq!(flash.power_up().outcome, Outcome::RunOnTest);
    /// assert_eq!(flash.mend().unwrap_err().number, 14);
    /// # Ok::<(), tainhosa::Refusal>(())
    /// ```
    pub fn mend(&mut self) -> Result<Mended, Refusal> {
        let mut numbers = [0; 3];
        let answer = raw::mend(self.geometry.sectors, self.geometry.size, self.boot, self.update, self.swap, &mut numbers);
        let [sector, flag, bytes] = numbers;
        match answer {
            0 => Ok(Mended { mark: Mark { sector: sector as usize, flag: Flag::of(flag as u8) }, bytes }),
            number => Err(Refusal::new(number, 0)),
        }
    }

    /// [`power_up_within`](Flash::power_up_within) with its erases counted, for the service sheet. The row has a count for each sector
    /// of BOOT, then of UPDATE, then for SWAP; a new printer's are 0. Each completed erase adds one to its sector's count, and nothing
    /// else changes the row. The total comes in as the row's sum, and goes out as that.
    ///
    /// Where power is lost, it is the user's part that the row counts the erases that were completed, and no other; the total handed in
    /// next is then its sum.
    ///
    /// Refused before all else with 1 (the row has not [`row_length`](Geometry::row_length) counts), 19 (the total is not the row's sum)
    /// or 20 (some count is above 4,294,967,295 less the number of firmware sectors); then flash, row and total stay as they are.
    ///
    /// ```
    /// # use tainhosa::{Flash, Geometry, Outcome, Refusal, Sheet};
    /// # let geometry = Geometry::new(3, 256)?;
    /// # let partition = |version| {
    /// #     let sheet = Sheet { version, timestamp: 0, auth_type: 0, signature: [0; 64], hint: None };
    /// #     let firmware = [version as u8; 200];
    /// #     let mut bytes = [&sheet.make_header(&firmware)?[..], &firmware].concat();
    /// #     bytes.resize(geometry.partition(), 0xFF);
    /// #     Ok::<_, tainhosa::Refusal>(bytes)
    /// # };
    /// # let (mut boot, mut update, mut swap) = (partition(7)?, partition(8)?, [0; 256]);
    /// # boot[767] = 0x00;
    /// let mut flash = Flash::new(geometry, &mut boot, &mut update, &mut swap)?;
    /// let mut row = vec![0; geometry.row_length()];
    /// let mut total = 0;
    ///
    /// // BOOT's three sectors, UPDATE's three, and SWAP: arming erases UPDATE's trailer sector.
    /// flash.arm_counted(&mut row, &mut total)?;
    /// assert_eq!((&row[..], total), (&[0, 0, 0, 0, 0, 1, 0][..], 1));
    ///
    /// // Power is lost after four operations: SWAP was erased, and sector 0 of UPDATE.
    /// assert_eq!(flash.power_up_counted_within(4, &mut row, &mut total).outcome, Outcome::Cut);
    /// assert_eq!((&row[..], total), (&[0, 0, 0, 1, 0, 1, 1][..], 3));
    ///
    /// // A total that is wrong, and a count that is too high.
    /// let refused = |number| Outcome::Refused(Refusal::new(number, 0));
    /// assert_eq!(flash.power_up_counted(&mut row, &mut 2).outcome, refused(19));
    /// let mut full = [0, 0, u32::MAX - 1, 0, 0, 0, 0];
    /// assert_eq!(flash.power_up_counted(&mut full, &mut 4_294_967_294).outcome, refused(20));
    /// assert_eq!(flash.power_up_counted(&mut row[1..], &mut total).outcome, refused(1));
    ///
    /// // The update goes on, and both trailer sectors are erased at its end.
    /// assert_eq!(flash.power_up_counted(&mut row, &mut total).outcome, Outcome::RunOnTest);
    /// assert_eq!((&row[..], total), (&[1, 1, 1, 2, 1, 2, 2][..], 10));
    /// # Ok::<(), tainhosa::Refusal>(())
    /// ```
    pub fn power_up_counted_within(&mut self, budget: u64, row: &mut [u32], total: &mut u64) -> PowerUp {
        let (sectors, size) = (self.geometry.sectors, self.geometry.size);
        let mut numbers = [0; 7];
        let answer = raw::power_up_counted(sectors, size, self.buffers(), budget, row, *total, &mut numbers);
        let [outcome, operations, inner, inner_place, reason, reason_place, sum] = numbers;
        *total = sum;
        PowerUp::of(answer, [outcome, operations, inner, inner_place, reason, reason_place])
    }

    /// [`power_up_counted_within`](Flash::power_up_counted_within) with as many operations as it takes.
    pub fn power_up_counted(&mut self, row: &mut [u32], total: &mut u64) -> PowerUp {
        self.power_up_counted_within(u64::MAX, row, total)
    }

    /// [`arm`](Flash::arm) with its erase counted, that of UPDATE's trailer sector. Row and total are those of
    /// [`power_up_counted_within`](Flash::power_up_counted_within).
    ///
    /// Refused with 1, 19 or 20, as there, and then with 10 or 14; then no byte, no count and no total changes.
    ///
    /// ```
    /// # use tainhosa::{Flash, Geometry};
    /// # let geometry = Geometry::new(3, 256)?;
    /// let (mut boot, mut update, mut swap) = ([0xFF; 768], [0xFF; 768], [0xFF; 256]);
    /// let mut flash = Flash::new(geometry, &mut boot, &mut update, &mut swap)?;
    /// let (mut row, mut total) = ([40, 41, 7, 40, 42, 12, 90], 272);
    ///
    /// assert_eq!(flash.arm_counted(&mut row, &mut 271).unwrap_err().number, 19);
    /// assert_eq!(flash.arm_counted(&mut row, &mut total)?, 2);
    /// assert_eq!((row, total), ([40, 41, 7, 40, 42, 13, 90], 273));
    /// assert_eq!(flash.arm_counted(&mut row, &mut total).unwrap_err().number, 14);
    /// assert_eq!((row, total), ([40, 41, 7, 40, 42, 13, 90], 273));
    /// # Ok::<(), tainhosa::Refusal>(())
    /// ```
    pub fn arm_counted(&mut self, row: &mut [u32], total: &mut u64) -> Result<u64, Refusal> {
        let (sectors, size) = (self.geometry.sectors, self.geometry.size);
        let mut numbers = [0; 2];
        let answer = raw::arm_counted(sectors, size, self.buffers(), row, *total, &mut numbers);
        let [count, sum] = numbers;
        *total = sum;
        counted(answer, [count])
    }
}

fn counted(answer: u32, count: [u64; 1]) -> Result<u64, Refusal> {
    match answer {
        0 => Ok(count[0]),
        number => Err(Refusal::new(number, 0)),
    }
}
