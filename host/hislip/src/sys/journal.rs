//! The calls that keep a journal, and those that read one.

/// What became of an entry: 0 written (or the event was refused), 1 no room, 2 closed.
#[repr(C)]
#[derive(Clone, Copy, Debug, PartialEq, Eq)]
pub struct hislip_kept {
    /// See above.
    pub kept: u64,
}

/// The answer to an opening, a cut or a reading of the clock that is kept.
#[repr(C)]
#[derive(Clone, Copy, Debug, PartialEq, Eq)]
pub struct hislip_kept_done {
    /// As in `hislip_done`.
    pub refusal: u64,
    /// As in `hislip_done`.
    pub output: u64,
    /// As in `hislip_kept`.
    pub kept: u64,
}

/// The answer to a delivery that is kept.
#[repr(C)]
#[derive(Clone, Copy, Debug, PartialEq, Eq)]
pub struct hislip_kept_delivery {
    /// As in `hislip_delivery`.
    pub refusal: u64,
    /// As in `hislip_delivery`.
    pub outcome: u64,
    /// As in `hislip_delivery`.
    pub session: u64,
    /// As in `hislip_delivery`.
    pub taken: u64,
    /// As in `hislip_delivery`.
    pub output: u64,
    /// As in `hislip_delivery`.
    pub missing: u64,
    /// As in `hislip_kept`.
    pub kept: u64,
}

/// The answer to an instrument's answer that is kept.
#[repr(C)]
#[derive(Clone, Copy, Debug, PartialEq, Eq)]
pub struct hislip_kept_answered {
    /// As in `hislip_answered`.
    pub refusal: u64,
    /// As in `hislip_answered`.
    pub withheld: u64,
    /// As in `hislip_answered`.
    pub output: u64,
    /// As in `hislip_kept`.
    pub kept: u64,
}

/// The answer to a list of allowed commands that is kept.
#[repr(C)]
#[derive(Clone, Copy, Debug, PartialEq, Eq)]
pub struct hislip_kept_listed {
    /// As in `hislip_listed`.
    pub refusal: u64,
    /// As in `hislip_listed`.
    pub pattern: u64,
    /// As in `hislip_listed`.
    pub place: u64,
    /// As in `hislip_kept`.
    pub kept: u64,
}

/// An entry in a book.
#[repr(C)]
#[derive(Clone, Copy, Debug, PartialEq, Eq)]
pub struct hislip_entry {
    /// 0 if there is none; then the rest is 0.
    pub found: u64,
    /// Where its body begins.
    pub body: u64,
    /// How many bytes its body has.
    pub length: u64,
    /// The next place.
    pub next: u64,
}

extern "C" {
    /// Begins a journal; writes no byte of the book.
    #[must_use = "there may be no room"]
    pub fn hislip_journal_new(journal: *mut u64, book: *mut u8, book_len: usize) -> hislip_kept;
    /// Writes the closing trailer.
    #[must_use = "there may be no room"]
    pub fn hislip_journal_close(journal: *mut u64, book: *mut u8, book_len: usize) -> hislip_kept;
    /// The entry that begins at a place.
    #[must_use = "asking changes nothing"]
    pub fn hislip_journal_forward(book: *const u8, book_len: usize, at: u64) -> hislip_entry;
    /// The entry that ends at a place of a closed journal.
    #[must_use = "asking changes nothing"]
    pub fn hislip_journal_backward(book: *const u8, book_len: usize, at: u64) -> hislip_entry;
    /// A connection opens.
    #[must_use = "the entry may not be kept"]
    pub fn hislip_keep_open(
        words: *mut u64,
        strings: *mut u8,
        connection: u32,
        journal: *mut u64,
        book: *mut u8,
        book_len: usize,
    ) -> hislip_kept_done;
    /// Unread bytes of a connection, of which the first 1,040 are looked at.
    #[must_use = "the frames in the buffer are to be sent"]
    pub fn hislip_keep_deliver(
        words: *mut u64,
        strings: *mut u8,
        connection: u32,
        bytes: *const u8,
        len: usize,
        out: *mut u8,
        out_len: usize,
        journal: *mut u64,
        book: *mut u8,
        book_len: usize,
    ) -> hislip_kept_delivery;
    /// A connection is cut.
    #[must_use = "the frames in the buffer are to be sent"]
    pub fn hislip_keep_cut(
        words: *mut u64,
        strings: *mut u8,
        connection: u32,
        out: *mut u8,
        out_len: usize,
        journal: *mut u64,
        book: *mut u8,
        book_len: usize,
    ) -> hislip_kept_done;
    /// The clock reads so many milliseconds.
    #[must_use = "the frames in the buffer are to be sent"]
    pub fn hislip_keep_clock(
        words: *mut u64,
        strings: *mut u8,
        milliseconds: u64,
        out: *mut u8,
        out_len: usize,
        journal: *mut u64,
        book: *mut u8,
        book_len: usize,
    ) -> hislip_kept_done;
    /// The instrument answers a session; of the bytes shown the first 16 count.
    #[must_use = "the frames in the buffer are to be sent"]
    pub fn hislip_keep_answer(
        words: *mut u64,
        strings: *mut u8,
        session: u32,
        payload: *const u8,
        len: usize,
        end: u8,
        shown: *const u8,
        shown_len: usize,
        out: *mut u8,
        out_len: usize,
        journal: *mut u64,
        book: *mut u8,
        book_len: usize,
    ) -> hislip_kept_answered;
    /// The instrument's status byte changes.
    #[must_use = "the entry may not be kept"]
    pub fn hislip_keep_status(
        words: *mut u64,
        strings: *mut u8,
        status: u8,
        journal: *mut u64,
        book: *mut u8,
        book_len: usize,
    ) -> hislip_kept;
    /// No reading of a session trips.
    #[must_use = "the entry may not be kept"]
    pub fn hislip_keep_watch_off(
        words: *mut u64,
        strings: *mut u8,
        session: u32,
        journal: *mut u64,
        book: *mut u8,
        book_len: usize,
    ) -> hislip_kept_done;
    /// A reading of a session above the limit trips.
    #[must_use = "the entry may not be kept"]
    pub fn hislip_keep_watch_above(
        words: *mut u64,
        strings: *mut u8,
        session: u32,
        limit: f32,
        journal: *mut u64,
        book: *mut u8,
        book_len: usize,
    ) -> hislip_kept_done;
    /// A reading of a session below the low limit or above the high one trips.
    #[must_use = "the entry may not be kept"]
    pub fn hislip_keep_watch_outside(
        words: *mut u64,
        strings: *mut u8,
        session: u32,
        low: f32,
        high: f32,
        journal: *mut u64,
        book: *mut u8,
        book_len: usize,
    ) -> hislip_kept_done;
    /// The list of allowed commands is set.
    #[must_use = "the list may be refused, the entry may not be kept"]
    pub fn hislip_keep_patterns(
        words: *mut u64,
        strings: *mut u8,
        text: *const u8,
        len: usize,
        journal: *mut u64,
        book: *mut u8,
        book_len: usize,
    ) -> hislip_kept_listed;
}
