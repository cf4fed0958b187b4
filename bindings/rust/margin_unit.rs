//! The sealed margin unit from Rust: safe functions over the static library `host`, from the bytes of a book to its margin,
//! and from a bond's terms, with index prices where it is an inflation bond, to its flows. docs/BOOK.md says what a book is
//! and how figures and flows come about, include/margin_unit.h what each refusal means, and bindings/README.md how to link.

use std::fmt;

/// The interface that this file is for, as the header's MARGIN_UNIT_VERSION. A host compares it, when it starts, with
/// `version()`, and calls nothing else where they differ.
pub const VERSION: u32 = 1;

/// Entries that suffice for every book.
pub const MOST_EXPOSURES: usize = 64;
pub const MOST_RETURNS: usize = 131_072;
pub const MOST_LIST: usize = 32;

/// Bytes that suffice for the flows of every bond.
pub const MOST_FLOWS_BYTES: usize = 960;

/// T, U, D and M by one kind of returns, in millionths of a euro, added up over the k scenarios.
#[derive(Clone, Copy, Debug, PartialEq, Eq)]
pub struct Charge {
    /// T: the total of the k largest losses.
    pub tail: u64,
    /// U: the sum of the T that each exposure alone would have.
    pub undiversified: u64,
    /// D: (100 − p) percent of U − T, rounded up; p is the book's decorrelation parameter.
    pub add_on: u64,
    /// M = T + D.
    pub total: u64,
}

/// What an accepted book comes to.
#[derive(Clone, Copy, Debug, PartialEq, Eq)]
pub struct Figures {
    /// How many scenarios a tail adds up, 1 to 16.
    pub k: usize,
    pub unscaled: Charge,
    pub scaled: Charge,
    /// The margin, in whole euros.
    pub euros: u64,
}

/// What a book or a bond's terms are refused for: the number, 1 to 24 of a book and 25 to 30 of terms, and the index of the
/// vertex, bond or position that is named, or 0.
#[derive(Clone, Copy, Debug, PartialEq, Eq)]
pub struct Refusal {
    pub number: u32,
    pub item: u32,
}

impl fmt::Display for Refusal {
    fn fmt(&self, f: &mut fmt::Formatter) -> fmt::Result {
        write!(f, "refused {} {}", self.number, self.item)
    }
}

impl std::error::Error for Refusal {}

/// A date of the calendar, 1 January 2000 to 31 December 2099; any other numbers are refused. Months and days count from 1.
#[derive(Clone, Copy, Debug, PartialEq, Eq, PartialOrd, Ord, Hash)]
pub struct Date {
    pub year: u32,
    pub month: u32,
    pub day: u32,
}

/// The terms that a bond is issued on.
#[derive(Clone, Copy, Debug, PartialEq, Eq)]
pub struct Terms {
    pub maturity: Date,
    /// The yearly coupon, in millionths of nominal, up to 1,000,000; 0 for a zero-coupon bond.
    pub rate: u32,
    /// Coupons a year, 1 or 2.
    pub frequency: u32,
}

/// An inflation bond. Its rate is that of its coupons before they are indexed.
#[derive(Clone, Copy, Debug, PartialEq, Eq)]
pub struct Linker {
    pub terms: Terms,
    /// Coupon dates after it bear coupons.
    pub issue: Date,
    /// Whether a coupon is indexed from the largest index number before its own; else it is from issue's.
    pub btp_italia: bool,
}

/// A flow of a bond, as a book has it.
#[derive(Clone, Copy, Debug, PartialEq, Eq)]
pub struct Flow {
    /// Days from the book's date.
    pub days: u16,
    /// In millionths of nominal.
    pub amount: u32,
}

/// The interface that the library has.
pub fn version() -> u32 {
    // SAFETY: the function takes nothing and reads nothing.
    unsafe { margin_unit_version() }
}

/// Runs a book to its margin.
///
/// Accepted: the buffers hold an exposure in euros for each vertex, 2 × vertices × LP returns in millionths (all unscaled by
/// vertex, then scenario, and then scaled likewise), and the numbers of 2 × k scenarios (those of the unscaled T first); LP is
/// the book's lookback, and later entries keep their contents. Refused: no entry changes. A buffer that is too short is
/// refusal 22, 23 or 24.
pub fn run(
    book: &[u8],
    exposures: &mut [i64],
    returns: &mut [i32],
    list: &mut [u16],
) -> Result<Figures, Refusal> {
    let mut figures = [0; 10];
    match call(book, exposures, returns, list, &mut figures) {
        0 => Ok(figures_of(&figures)),
        refusal => Err(refusal_of(refusal)),
    }
}

/// Writes the flows of a bond after `evaluation`, the book's date, and gives how many there are, 1 to 120.
///
/// The buffer holds 8 bytes for each, by rising days, as a book's flows section has them; later bytes keep their contents.
/// Refused: no byte changes. A buffer that is too short is refusal 27.
pub fn write_flows(evaluation: Date, terms: &Terms, buffer: &mut [u8]) -> Result<usize, Refusal> {
    count_of(call_flows(evaluation, terms, buffer))
}

/// The same flows, each by itself.
pub fn flows(evaluation: Date, terms: &Terms) -> Result<Vec<Flow>, Refusal> {
    decoded(|buffer| write_flows(evaluation, terms, buffer))
}

/// Writes the flows of an inflation bond after both `evaluation`, the book's date, and issue, and gives how many there are, 1
/// to 120. The index prices are in ten-thousandths, one a month from January 2000 on.
///
/// The buffer holds records as those of `write_flows`; later bytes keep their contents. Refused: no byte changes. A buffer that
/// is too short for the flows before they are indexed is refusal 27, too few prices are 29.
pub fn write_linker_flows(
    evaluation: Date,
    linker: &Linker,
    prices: &[u32],
    buffer: &mut [u8],
) -> Result<usize, Refusal> {
    let Linker { terms, issue, btp_italia } = linker;
    count_of(call_linker_flows(evaluation, *issue, terms, *btp_italia as u32, prices, buffer))
}

/// The same flows, each by itself.
pub fn linker_flows(evaluation: Date, linker: &Linker, prices: &[u32]) -> Result<Vec<Flow>, Refusal> {
    decoded(|buffer| write_linker_flows(evaluation, linker, prices, buffer))
}

// The flows that are written to a buffer with room for every bond's.
fn decoded(write: impl FnOnce(&mut [u8]) -> Result<usize, Refusal>) -> Result<Vec<Flow>, Refusal> {
    let mut buffer = [0; MOST_FLOWS_BYTES];
    let count = write(&mut buffer)?;
    let flow = |record: &[u8]| Flow {
        days: u16::from_le_bytes([record[0], record[1]]),
        amount: u32::from_le_bytes([record[4], record[5], record[6], record[7]]),
    };
    Ok(buffer.chunks(8).take(count).map(flow).collect())
}

// How many flows were written, by the code of such a call.
fn count_of(code: u32) -> Result<usize, Refusal> {
    match code {
        count if count < 65_536 => Ok(count as usize),
        refusal => Err(refusal_of(refusal)),
    }
}

// A code taken apart, as the header's MARGIN_UNIT_NUMBER and MARGIN_UNIT_ITEM.
fn refusal_of(code: u32) -> Refusal {
    Refusal { number: code / 65_536, item: code % 65_536 }
}

// The ten figures by their places, as the header's MARGIN_UNIT_K to MARGIN_UNIT_EUROS.
pub(crate) fn figures_of(figures: &[u64; 10]) -> Figures {
    let charge = |from: usize| Charge {
        tail: figures[from],
        undiversified: figures[from + 1],
        add_on: figures[from + 2],
        total: figures[from + 3],
    };
    Figures { k: figures[0] as usize, unscaled: charge(1), scaled: charge(5), euros: figures[9] }
}

// The call as include/margin_unit.h has it: 0 where the book is accepted, else number × 65,536 + item.
pub(crate) fn call(
    book: &[u8],
    exposures: &mut [i64],
    returns: &mut [i32],
    list: &mut [u16],
    figures: &mut [u64; 10],
) -> u32 {
    // SAFETY: each pointer and length are those of one slice, so the pointer is aligned, not null even where the slice is
    // empty, and valid for so many entries; the figures are ten. The buffers and figures are borrowed by this call alone, so
    // none overlaps another or the book. The unit asks for nothing else: any bytes may be handed over as a book.
    unsafe {
        margin_unit_run(
            book.as_ptr(),
            book.len(),
            exposures.as_mut_ptr(),
            exposures.len(),
            returns.as_mut_ptr(),
            returns.len(),
            list.as_mut_ptr(),
            list.len(),
            figures.as_mut_ptr(),
        )
    }
}

// The call as the header has it: how many flows there are, or number × 65,536.
pub(crate) fn call_flows(evaluation: Date, terms: &Terms, buffer: &mut [u8]) -> u32 {
    let Terms { maturity, rate, frequency } = *terms;
    // SAFETY: pointer and length are those of one slice, borrowed by this call alone. Any numbers may be handed over.
    unsafe {
        margin_unit_flows(
            evaluation.year,
            evaluation.month,
            evaluation.day,
            maturity.year,
            maturity.month,
            maturity.day,
            rate,
            frequency,
            buffer.as_mut_ptr(),
            buffer.len(),
        )
    }
}

// The call as the header has it: how many flows there are, or number × 65,536.
pub(crate) fn call_linker_flows(
    evaluation: Date,
    issue: Date,
    terms: &Terms,
    btp_italia: u32,
    prices: &[u32],
    buffer: &mut [u8],
) -> u32 {
    let Terms { maturity, rate, frequency } = *terms;
    // SAFETY: each pointer and length are those of one slice, so the prices are aligned. The buffer is borrowed by this call
    // alone, so it does not overlap them. Any numbers may be handed over.
    unsafe {
        margin_unit_linker_flows(
            evaluation.year,
            evaluation.month,
            evaluation.day,
            issue.year,
            issue.month,
            issue.day,
            maturity.year,
            maturity.month,
            maturity.day,
            rate,
            frequency,
            btp_italia,
            prices.as_ptr(),
            prices.len(),
            buffer.as_mut_ptr(),
            buffer.len(),
        )
    }
}

extern "C" {
    fn margin_unit_version() -> u32;

    fn margin_unit_run(
        book: *const u8,
        book_len: usize,
        exposures: *mut i64,
        exposures_len: usize,
        returns: *mut i32,
        returns_len: usize,
        list: *mut u16,
        list_len: usize,
        figures: *mut u64,
    ) -> u32;

    fn margin_unit_flows(
        evaluation_year: u32,
        evaluation_month: u32,
        evaluation_day: u32,
        maturity_year: u32,
        maturity_month: u32,
        maturity_day: u32,
        rate: u32,
        frequency: u32,
        flows: *mut u8,
        flows_len: usize,
    ) -> u32;

    fn margin_unit_linker_flows(
        evaluation_year: u32,
        evaluation_month: u32,
        evaluation_day: u32,
        issue_year: u32,
        issue_month: u32,
        issue_day: u32,
        maturity_year: u32,
        maturity_month: u32,
        maturity_day: u32,
        rate: u32,
        frequency: u32,
        btp_italia: u32,
        prices: *const u32,
        prices_len: usize,
        flows: *mut u8,
        flows_len: usize,
    ) -> u32;
}
