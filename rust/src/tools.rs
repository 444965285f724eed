//! The tools, which neither read nor change a record: comparison of two hand-over files, salvage of a damaged cookie list, and the poll calendar of a modem.
use crate::answers::{CheckRefused, CompareRefused, PlanRefused, SalvageRefused};
use crate::ffi;

/// The most entries of a calendar.
pub const ENTRIES: usize = 64;

/// A buffer of this size holds the list of any two files.
pub const LIST_BYTES: usize = 494;

/// The reading of a cookie that a box does not have.
pub const NO_COOKIE: u64 = 65536;

/// The bytes of an entry.
const ENTRY_BYTES: usize = 19;

/// A field in which two boxes differ (docs/HANDOVER.md has the codes).
#[derive(Clone, Copy, Debug, PartialEq, Eq, Hash)]
#[non_exhaustive]
pub struct Difference {
    /// Which field it is; 32 to 39 are the cookies, the oldest first.
    pub code: u8,
    /// Its reading in the left file: a number, a signed one as 64-bit two's complement; for a cookie its length or [`NO_COOKIE`].
    pub left: u64,
    /// And in the right file.
    pub right: u64,
    /// For two cookies, where the first stored byte differs, or the shorter one ends; else 0.
    pub place: u16,
}

/// The fields in which two boxes differ.
#[derive(Clone, Copy, Debug, PartialEq, Eq)]
#[must_use]
pub struct Differences<'b> {
    /// The list, at the beginning of the buffer that was lent: 19 bytes for each entry.
    pub list: &'b [u8],
}

impl Differences<'_> {
    /// How many fields differ; none if the two loaded records are equal.
    #[must_use]
    pub fn len(&self) -> usize {
        self.list.len() / ENTRY_BYTES
    }

    /// Whether nothing differs.
    #[must_use]
    pub fn is_empty(&self) -> bool {
        self.list.is_empty()
    }

    /// The fields, in the order of the file.
    pub fn iter(&self) -> impl Iterator<Item = Difference> + '_ {
        let number = |bytes: &[u8]| bytes.iter().fold(0, |x, b| x << 8 | u64::from(*b));
        self.list.chunks_exact(ENTRY_BYTES).map(move |e| Difference {
            code: e[0],
            left: number(&e[1..9]),
            right: number(&e[9..17]),
            place: u16::from_be_bytes([e[17], e[18]]),
        })
    }
}

/// Compares two hand-over files, of boxes that behave differently: an entry for each field that differs is written to `out`, in the file's order. Of a cookie
/// only the length and a place are written. A buffer of [`LIST_BYTES`] is always enough. What is loaded is compared: a file without a capacity has 8, and the
/// retired version is V4.
///
/// # Errors
/// [`CompareRefused`]: for the left file, then for the right one, then for the buffer. Nothing is written.
///
/// ```
/// use reckonstile::{compare, Association, Settings, LIST_BYTES};
/// let file = |startup_tries| {
///     let (mut a, _) = Association::<8>::new(&Settings { startup_tries, ..Settings::default() }, &[]).unwrap();
///     let mut out = [0; reckonstile::FILE_BYTES];
///     let length = a.save(&mut out).unwrap();
///     out[..length].to_vec()
/// };
/// let mut out = [0; LIST_BYTES];
/// assert!(compare(&file(3), &file(3), &mut out).unwrap().is_empty());
/// let differ: Vec<_> = compare(&file(3), &file(8), &mut out).unwrap().iter().map(|d| (d.code, d.left, d.right)).collect();
/// assert_eq!(differ, [(3, 3, 8)]);
/// ```
pub fn compare<'b>(left: &[u8], right: &[u8], out: &'b mut [u8]) -> Result<Differences<'b>, CompareRefused> {
    let said = ffi::compare(left, right, out);
    match (said.number, out.get(..ENTRY_BYTES * ffi::size(said.entries))) {
        (0, Some(list)) => Ok(Differences { list }),
        (number, _) => Err(CompareRefused::from_answer(number, said.side)),
    }
}

/// What is left of a damaged cookie list, and what was lost of it.
#[derive(Clone, Copy, Debug, PartialEq, Eq)]
#[must_use]
pub struct Salvaged<'b> {
    /// The clean list, at the beginning of the buffer that was lent: [`Association::new`](crate::Association::new) takes it.
    pub list: &'b [u8],
    /// How many records (cookies) were kept.
    pub kept: usize,
    /// How many bytes were skipped; with the clean list's length they add up to the damaged list's.
    pub skipped: usize,
    /// How many gaps there are: runs of skipped bytes, with a record kept between two of them.
    pub gaps: usize,
    places: [usize; 32],
    told: usize,
}

impl Salvaged<'_> {
    /// Where the first 32 gaps start in the damaged list, in order; further ones are only counted.
    #[must_use]
    pub fn places(&self) -> &[usize] {
        self.places.get(..self.told).unwrap_or(&self.places)
    }
}

/// Cleans a damaged cookie list: what is left of it is written to `out`, which must be as long as the list. Each place is tried in turn: if a mark (C0 0E), a
/// length of two bytes and that many bytes fit, and the end or another mark follows, the record is kept; else one byte is skipped. A list without damage comes
/// out byte for byte.
///
/// # Errors
/// [`SalvageRefused`]; then nothing is written.
///
/// ```
/// // Two cookies, and between them a byte that flash has added.
/// let damaged = *b"\xc0\x0e\0\x01a\xff\xc0\x0e\0\x02bc";
/// let mut out = [0; 12];
/// let salvaged = reckonstile::salvage(&damaged, &mut out).unwrap();
/// assert_eq!(salvaged.list, b"\xc0\x0e\0\x02bc");
/// assert_eq!((salvaged.kept, salvaged.skipped, salvaged.gaps, salvaged.places()), (1, 6, 1, &[0][..]));
/// ```
pub fn salvage<'b>(list: &[u8], out: &'b mut [u8]) -> Result<Salvaged<'b>, SalvageRefused> {
    let said = ffi::salvage(list, out);
    match (said.number, out.get(..ffi::size(said.length))) {
        (0, Some(list)) => Ok(Salvaged {
            list,
            kept: ffi::size(said.kept),
            skipped: ffi::size(said.skipped),
            gaps: ffi::size(said.gaps),
            places: said.places.map(ffi::size),
            told: said.told as usize,
        }),
        (number, _) => Err(SalvageRefused::from_number(number)),
    }
}

/// Whether a calendar of polls keeps to a modem's cap: entry k polls at minute m of the day, 0 to 1439, exactly if m modulo `repeats[k]` is `starts[k]`, and no
/// minute may have more polls than `cap`. The lists are of the same length, up to [`ENTRIES`]; if they are not, the calendar is rejected.
///
/// # Errors
/// [`CheckRefused`], with the lowest entry or minute.
///
/// ```
/// use reckonstile::{check_calendar, CheckRefused};
/// assert_eq!(check_calendar(1, &[15, 16], &[60, 60]), Ok(()));
/// assert_eq!(check_calendar(1, &[60], &[60]), Err(CheckRefused::LateStart { entry: 0 }));
/// assert_eq!(check_calendar(1, &[15, 15, 15], &[60, 7, 0]), Err(CheckRefused::BadRepeat { entry: 1 }));
/// ```
pub fn check_calendar(cap: u8, starts: &[u16], repeats: &[u16]) -> Result<(), CheckRefused> {
    let said = ffi::check_calendar(cap, starts, repeats);
    match said.number {
        0 => Ok(()),
        _ => Err(CheckRefused::from_answer(&said)),
    }
}

/// Places entries one by one, each at the earliest start that fits after those before it, and returns the starts, which it writes to the beginning of the
/// buffer; the buffer needs a start for each repeat. It does not look back, so an entry may be rejected although another plan exists. [`check_calendar`]
/// accepts what is planned.
///
/// # Errors
/// [`PlanRefused`]; then nothing is written.
///
/// ```
/// use reckonstile::{check_calendar, plan_calendar};
/// let repeats = [5, 10, 10, 15];
/// let mut buffer = [0; 4];
/// let starts = plan_calendar(1, &repeats, &mut buffer).unwrap();
/// assert_eq!(starts, [0, 1, 2, 3]);
/// assert_eq!(check_calendar(1, starts, &repeats), Ok(()));
/// ```
pub fn plan_calendar<'b>(cap: u8, repeats: &[u16], starts: &'b mut [u16]) -> Result<&'b [u16], PlanRefused> {
    let said = ffi::plan_calendar(cap, repeats, starts);
    match (said.number, starts.get(..repeats.len())) {
        (0, Some(starts)) => Ok(starts),
        _ => Err(PlanRefused::from_answer(&said)),
    }
}
