//! The proved checker of emission sheets, the proved listing of a programme's start, the proved
//! gain of a plain factor, and the proved check of the block times of a live frame, for players in
//! Rust.
//!
//! The functions themselves are proved in `crates/host`; what stands here only declares
//! them, lends them the bytes or numbers and reads the number they give. The declarations repeat
//! `bindings/c/sheet.h` and aren't checked against the proved source.

mod frame;
mod gain;
mod listing;
mod verdict;

pub use frame::FrameError;
pub use gain::{FactorTooLarge, Gain};
pub use listing::Refusal;
pub use verdict::Verdict;

extern "C" {
    /// 0, or 1,000,000 times the rule plus 100,000 times the section plus the record.
    fn sheet_check(sheet: *const u8, sheet_len: usize, langs: *const u8, langs_len: usize) -> u32;

    /// The number of entries, or the refusal's number negated.
    fn sheet_start_listing(
        sheet: *const u8,
        sheet_len: usize,
        langs: *const u8,
        langs_len: usize,
        programme: u32,
        buffer: *mut u8,
        buffer_len: usize,
    ) -> i32;

    /// The tenths of a dB, -32768 for silence, or 1,000,000 times the refusal's number.
    #[link_name = "gain_of_factor"]
    fn gain_number(millionths: u32) -> i32;

    /// 0, or the error's number.
    fn frame_check(frame: u32, numbers: *const u32, count: usize) -> u32;
}

/// The verdict on a sheet with the list of language words that is lent beside it: any lengths, any
/// bytes.
///
/// The list has two bytes for each word, high first, strictly rising; an odd last byte is ignored.
/// A word is 1024 times the first letter of a code plus 32 times the second plus the third, a = 1
/// to z = 26. Codes from qaa to qtz are good without being listed. A list that isn't strictly
/// rising is rule 33, whatever the sheet.
///
/// ```
/// use host::{check, Verdict};
///
/// let broken = |rule| Verdict::Broken { rule, section: 0, record: 0 };
/// let eng = [21, 199];
/// assert_eq!(check(&[], &eng), broken(1));
/// assert_eq!(check(&[], &[21, 199, 21, 199]), broken(33));
///
/// let play = include_bytes!("../../../../examples/play.sheet");
/// let langs = include_bytes!("../../../../examples/langs");
/// assert_eq!(check(play, langs), Verdict::Accepted);
/// assert_eq!(check(play, &eng), Verdict::Broken { rule: 6, section: 1, record: 0 });
/// ```
///
/// # Panics
///
/// If the linked archive gives a number that is no verdict, so isn't the proved one.
pub fn check(sheet: &[u8], langs: &[u8]) -> Verdict {
    // SAFETY: the call reads the bytes of the slices, writes nothing and keeps nothing; it
    // follows each pointer only below its length.
    let code = unsafe { sheet_check(sheet.as_ptr(), sheet.len(), langs.as_ptr(), langs.len()) };
    Verdict::of_code(code).unwrap_or_else(|| panic!("sheet_check gave {code}, no verdict"))
}

/// Lists the tracks that sound when a programme starts: writes each as two bytes, high
/// first, and gives the number of tracks.
///
/// Any sheet, any list (as `check` takes it), any number and any buffer are answered. Bytes after
/// the last track stay as they are, and a refusal changes none. The tracks are those of active
/// objects by rising index, children in list order, tracks in list order; one that two active
/// objects list is there twice. 56 bytes are enough for every sheet.
///
/// ```
/// use host::{start_listing, Refusal};
///
/// let sheet = include_bytes!("../../../../examples/play.sheet");
/// let langs = include_bytes!("../../../../examples/langs");
/// let mut buffer = [0xff; 56];
/// // programme 1 of the play: the bed's two tracks, the German narrator, the rain
/// assert_eq!(start_listing(sheet, langs, 1, &mut buffer), Ok(4));
/// assert_eq!(buffer[..8], [0, 0, 0, 1, 0, 3, 0, 5]);
/// assert_eq!(buffer[8..], [0xff; 48]);
///
/// assert_eq!(start_listing(sheet, langs, 2, &mut buffer), Err(Refusal::NoSuchProgramme));
/// assert_eq!(start_listing(sheet, langs, 1, &mut buffer[..7]), Err(Refusal::BufferTooSmall));
/// assert_eq!(start_listing(&[], langs, 0, &mut buffer), Err(Refusal::SheetNotAccepted));
/// assert_eq!(start_listing(sheet, &[], 1, &mut buffer), Err(Refusal::SheetNotAccepted));
/// ```
///
/// # Panics
///
/// If the linked archive gives a number that is neither a refusal nor a number of tracks that
/// the buffer holds, so isn't the proved one.
pub fn start_listing(
    sheet: &[u8],
    langs: &[u8],
    programme: u32,
    buffer: &mut [u8],
) -> Result<usize, Refusal> {
    let bytes = buffer.len();
    // SAFETY: the call reads the bytes of sheet and list and writes bytes of the buffer, which
    // neither overlaps as it is borrowed mutably; it follows each pointer only below its length
    // and keeps nothing.
    let answer = unsafe {
        sheet_start_listing(
            sheet.as_ptr(),
            sheet.len(),
            langs.as_ptr(),
            langs.len(),
            programme,
            buffer.as_mut_ptr(),
            bytes,
        )
    };
    listing::of_answer(answer, bytes)
        .unwrap_or_else(|| panic!("sheet_start_listing gave {answer} for {bytes} bytes, no answer"))
}

/// The gain of a plain factor, which is given in millionths: the least tenth of a dB that is not
/// below it, and silence for 0.
///
/// Every factor is answered: 1 to 1,000 give -600, 1,000,000 gives 0, 11,220,184 gives 210, and a
/// factor above that is refused.
///
/// ```
/// use host::{gain_of_factor, FactorTooLarge, Gain};
///
/// assert_eq!(gain_of_factor(0), Ok(Gain::Silent));
/// assert_eq!(gain_of_factor(1_000), Ok(Gain::Tenths(-600)));
/// assert_eq!(gain_of_factor(1_000_000), Ok(Gain::Tenths(0)));
/// assert_eq!(gain_of_factor(1_000_001), Ok(Gain::Tenths(1)));
/// assert_eq!(gain_of_factor(11_220_185), Err(FactorTooLarge));
/// ```
///
/// # Panics
///
/// If the linked archive gives a number that is no answer, so isn't the proved one.
#[inline]
pub fn gain_of_factor(millionths: u32) -> Result<Gain, FactorTooLarge> {
    // SAFETY: the call is given a number and follows no pointer.
    let number = unsafe { gain_number(millionths) };
    gain::of_number(number)
        .unwrap_or_else(|| panic!("gain_of_factor gave {number} for {millionths}, no answer"))
}

/// Whether the blocks of one channel conform to a live frame of this length, both in microseconds.
///
/// The numbers are three to a block: its start, its length, and 0, or any other number if it is
/// initialising. An initialising block stands first, if there is one; its start and length are not
/// read and it is ignored in all sums. Each other length is 0 or at least 5,000, each start is the
/// sum of the earlier lengths, and the lengths add up to the frame, in exact sums. There is at
/// least one block. Every frame length and all numbers are answered, however many.
///
/// ```
/// use host::{check_frame, FrameError};
///
/// let block = |start, length| [start, length, 0];
/// let initialising = [0, 0, 1];
/// let blocks = [initialising, block(0, 5_000), block(5_000, 0), block(5_000, 15_000)].concat();
/// assert_eq!(check_frame(20_000, &blocks), Ok(()));
///
/// assert_eq!(check_frame(20_000, &blocks[3..]), Ok(()));
/// assert_eq!(check_frame(20_001, &blocks), Err(FrameError::BadTotal));
/// assert_eq!(check_frame(20_000, &[]), Err(FrameError::BadTotal));
/// assert_eq!(check_frame(20_000, &blocks[..11]), Err(FrameError::BadBlock));
/// let twice = [initialising, initialising].concat();
/// assert_eq!(check_frame(0, &twice), Err(FrameError::InitialisingNotFirst));
/// ```
///
/// # Panics
///
/// If the linked archive gives a number that is no answer, so isn't the proved one.
#[inline]
pub fn check_frame(frame: u32, numbers: &[u32]) -> Result<(), FrameError> {
    // SAFETY: the call reads the numbers of the slice, writes nothing and keeps nothing; it
    // follows the pointer only below its length.
    let number = unsafe { frame_check(frame, numbers.as_ptr(), numbers.len()) };
    frame::of_number(number)
        .unwrap_or_else(|| panic!("frame_check gave {number} for frame {frame}, no answer"))
}
