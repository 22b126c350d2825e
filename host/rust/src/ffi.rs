//! The library's calls as they are. Nothing checks these declarations against the library: they stand side by side
//! with the header, host/mapcache.h.in, which also says what each call does. What each assumes is what the header
//! assumes of every host; the safe functions of this crate cannot break it.
#![allow(unsafe_code)]

unsafe extern "C" {
    /// The bytes that a store needs.
    ///
    /// # Safety
    ///
    /// Nothing is asked of the caller: the call takes nothing and touches no memory.
    pub unsafe fn mapcache_store_bytes() -> u64;

    /// Makes the store an empty cache; 0, or minus the refusal's number.
    ///
    /// # Safety
    ///
    /// `store` is not null, also where `store_len` is 0, and `store_len` bytes from it on may be read and written. No
    /// other thread uses them during the call. Whatever the bytes and the settings hold is judged, not assumed.
    pub unsafe fn mapcache_create(
        capacity: u64,
        small_ratio: f64,
        ghost_ratio: f64,
        store: *mut u8,
        store_len: usize,
    ) -> i64;

    /// Runs the requests; the reply bytes, or minus the refusal's number, whose detail stands in `detail`.
    ///
    /// # Safety
    ///
    /// No pointer is null, also where its length is 0. `store_len` bytes from `store` on and `replies_len` from `replies`
    /// on may be read and written, `requests_len` from `requests` on may be read, and `detail` is aligned as a `u64` is
    /// and may be written as one. None of the four overlaps another, and no other thread uses them during the call. Whatever
    /// the bytes hold is judged, not assumed.
    pub unsafe fn mapcache_run(
        store: *mut u8,
        store_len: usize,
        requests: *const u8,
        requests_len: usize,
        replies: *mut u8,
        replies_len: usize,
        detail: *mut u64,
    ) -> i64;

    /// Takes the next piece of a stream; the reply bytes, or minus the refusal's number, whose detail stands in `detail`.
    /// The reply bytes stand in `replied` too, and with a new -9 they are those of the requests before the mark.
    ///
    /// # Safety
    ///
    /// No pointer is null, also where its length is 0. `store_len` bytes from `store` on, `carry_len` from `carry` on and
    /// `replies_len` from `replies` on may be read and written, `piece_len` from `piece` on may be read, and `replied` and
    /// `detail` are aligned as a `u64` is and may be written as one. None of the six overlaps another, and no other thread
    /// uses them during the call. Whatever the bytes hold is judged, not assumed.
    pub unsafe fn mapcache_feed(
        store: *mut u8,
        store_len: usize,
        carry: *mut u8,
        carry_len: usize,
        piece: *const u8,
        piece_len: usize,
        replies: *mut u8,
        replies_len: usize,
        replied: *mut u64,
        detail: *mut u64,
    ) -> i64;

    /// Says whether a stream may end here; 0, or minus the refusal's number, whose detail stands in `detail`.
    ///
    /// # Safety
    ///
    /// No pointer is null, also where `carry_len` is 0. `carry_len` bytes from `carry` on may be read, and `detail` is
    /// aligned as a `u64` is and may be written as one. The two do not overlap, and no other thread uses them during the
    /// call. Whatever the bytes hold is judged, not assumed.
    pub unsafe fn mapcache_finish(carry: *const u8, carry_len: usize, detail: *mut u64) -> i64;
}
