//! The words of a state, and the calls that lend them to the library.

/// The library's function that writes a fresh state: whether there are words enough for it.
pub type Fresh = unsafe extern "C" fn(state: *mut usize, state_len: usize) -> bool;

/// The library's function that takes steps and writes their rows.
pub type Advance = unsafe extern "C" fn(
    doc: *const u8,
    doc_len: usize,
    state: *mut usize,
    state_len: usize,
    rows: *mut usize,
    rows_len: usize,
) -> usize;

/// The `COUNT` words of a state.
pub struct Words<const COUNT: usize>([usize; COUNT]);

impl<const COUNT: usize> Words<COUNT> {
    /// The words that `fresh` writes.
    ///
    /// # Safety
    ///
    /// `fresh` touches nothing but the words that it is lent.
    pub unsafe fn fresh(fresh: Fresh) -> Self {
        let mut words = [0; COUNT];
        // SAFETY: the pointer and the length are those of `words`, which nothing else refers to.
        let written = unsafe { fresh(words.as_mut_ptr(), words.len()) };
        assert!(written, "a state of {COUNT} words is written");
        Words(words)
    }

    pub fn as_mut_slice(&mut self) -> &mut [usize] {
        &mut self.0
    }

    /// Has `advance` take steps from the state in the words: what it returns.
    ///
    /// # Safety
    ///
    /// `advance` touches nothing but the document, which it only reads, and the words and the rows
    /// that it is lent.
    pub unsafe fn advance(
        &mut self,
        advance: Advance,
        document: &[u8],
        rows: &mut [usize],
    ) -> usize {
        let Words(words) = self;
        // SAFETY: each pointer and length are those of one slice. `document` is only read, and
        // nothing else refers to `words` or `rows`.
        unsafe {
            advance(
                document.as_ptr(),
                document.len(),
                words.as_mut_ptr(),
                words.len(),
                rows.as_mut_ptr(),
                rows.len(),
            )
        }
    }
}
