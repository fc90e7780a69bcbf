//! The proved functions that C can call, as safe functions of Rust.

// A line each, as the headers have them: testbench.h and firmware.h in include/.
#[rustfmt::skip]
extern "C" {
    fn testbench_permute_row(row: *mut u64, length: usize) -> u32;
    fn testbench_permute_chain(x0: u64, rounds: u64, times: u64) -> u64;
    fn testbench_sponge(key: *const u8, key_length: usize, message: *const u8, message_length: usize, out: *mut u8, out_length: usize, mode: u32, tag_length: u8, cut: usize, first: usize) -> u64;
    fn testbench_tag(key: *const u8, key_length: usize, message: *const u8, message_length: usize, tag: *const u8, given: usize, tag_length: u8) -> u32;
    fn testbench_seal_runs(key: *const u8, key_length: usize, frame: *mut u8, frame_length: usize, body: usize) -> u64;
    fn testbench_verify_runs(key: *const u8, key_length: usize, frame: *const u8, frame_length: usize, body: usize) -> u64;
    fn testbench_feeds_by_value(ticket: u32, bytes: *const u8, length: usize, times: usize) -> u64;
    fn testbench_feeds_in_place(ticket: u32, bytes: *const u8, length: usize, times: usize) -> u64;
    fn testbench_parts_in_place(key: *const u8, key_length: usize, message: *const u8, message_length: usize, out: *mut u8, out_length: usize, mode: u32, tag_length: u32, first: usize, second: usize) -> u64;
    fn ascon_prf_short(key: *const u8, key_length: usize, message: *const u8, message_length: usize, out: *mut u8, out_length: usize, length: usize) -> u32;
    fn ascon_seal_frame(key: *const u8, key_length: usize, frame: *mut u8, frame_length: usize, body: usize) -> u32;
    fn ascon_verify_frame(key: *const u8, key_length: usize, frame: *const u8, frame_length: usize, body: usize) -> u32;
}

/// Permutes a row of five words and gives 0; gives the refusal for any other row.
pub fn permute_row(row: &mut [u64]) -> u32 {
    // SAFETY: the pointer and the length are those of one slice, lent for the call alone.
    unsafe { testbench_permute_row(row.as_mut_ptr(), row.len()) }
}

/// x0 after the state x0, 0, 0, 0, 0 was permuted `times` times, by `rounds` rounds each.
pub fn permute_chain(x0: u64, rounds: u64, times: u64) -> u64 {
    // SAFETY: it takes and gives numbers.
    unsafe { testbench_permute_chain(x0, rounds, times) }
}

/// The output of a mode for a message, as much as is lent, and the runs made: the message is fed in two parts, and the output drawn in two. The tag length
/// counts in mode 2 alone.
pub fn sponge(
    mode: u32,
    tag_length: u8,
    key: &[u8],
    message: &[u8],
    cut: usize,
    out: &mut [u8],
    first: usize,
) -> u64 {
    // SAFETY: each pointer and the length after it are those of one slice, lent for the call alone; out is lent to it alone.
    unsafe {
        testbench_sponge(
            key.as_ptr(),
            key.len(),
            message.as_ptr(),
            message.len(),
            out.as_mut_ptr(),
            out.len(),
            mode,
            tag_length,
            cut,
            first,
        )
    }
}

/// Whether a tag is the whole MAC of a message, with tags of that length: 1, or 0.
pub fn tag(key: &[u8], message: &[u8], tag: &[u8], tag_length: u8) -> u32 {
    // SAFETY: each pointer and the length after it are those of one slice, lent for the call alone.
    unsafe {
        testbench_tag(
            key.as_ptr(),
            key.len(),
            message.as_ptr(),
            message.len(),
            tag.as_ptr(),
            tag.len(),
            tag_length,
        )
    }
}

/// A ticket's run count after so many feeds of the same bytes in a hub of sixteen MAC tickets, by value.
pub fn feeds_by_value(ticket: u32, bytes: &[u8], times: usize) -> u64 {
    // SAFETY: the slice is valid for its length, and its pointer is not null.
    unsafe { testbench_feeds_by_value(ticket, bytes.as_ptr(), bytes.len(), times) }
}

/// The same in place.
pub fn feeds_in_place(ticket: u32, bytes: &[u8], times: usize) -> u64 {
    // SAFETY: the slice is valid for its length, and its pointer is not null.
    unsafe { testbench_feeds_in_place(ticket, bytes.as_ptr(), bytes.len(), times) }
}

/// The output of a ticket of a mode for a message, as much as is lent, and the runs made: the message is fed in three parts, in place. The tag length counts in
/// mode 2 alone. 0 where it is refused.
pub fn parts_in_place(
    mode: u32,
    tag_length: u32,
    key: &[u8],
    message: &[u8],
    first: usize,
    second: usize,
    out: &mut [u8],
) -> u64 {
    // SAFETY: each pointer and the length after it are those of one slice, lent for the call alone; out is lent to it alone.
    unsafe {
        testbench_parts_in_place(
            key.as_ptr(),
            key.len(),
            message.as_ptr(),
            message.len(),
            out.as_mut_ptr(),
            out.len(),
            mode,
            tag_length,
            first,
            second,
        )
    }
}

/// The short function, an output of so many bytes for a message under a key: 0, or the refusal.
pub fn prf_short(key: &[u8], message: &[u8], out: &mut [u8], length: usize) -> u32 {
    // SAFETY: each pointer and the length after it are those of one slice, lent for the call alone; out is lent to it alone.
    unsafe {
        ascon_prf_short(
            key.as_ptr(),
            key.len(),
            message.as_ptr(),
            message.len(),
            out.as_mut_ptr(),
            out.len(),
            length,
        )
    }
}

/// Seals a frame: 0, or the refusal.
pub fn seal(key: &[u8], frame: &mut [u8], body: usize) -> u32 {
    // SAFETY: as above; the frame is lent to it alone.
    unsafe {
        ascon_seal_frame(
            key.as_ptr(),
            key.len(),
            frame.as_mut_ptr(),
            frame.len(),
            body,
        )
    }
}

/// Judges a frame: 0 where it passes, 255 where it fails, or the refusal.
pub fn verify(key: &[u8], frame: &[u8], body: usize) -> u32 {
    // SAFETY: as above.
    unsafe { ascon_verify_frame(key.as_ptr(), key.len(), frame.as_ptr(), frame.len(), body) }
}

/// Seals a frame: the runs that are reported, 0 where it is refused.
pub fn seal_runs(key: &[u8], frame: &mut [u8], body: usize) -> u64 {
    // SAFETY: as above; the frame is lent to it alone.
    unsafe {
        testbench_seal_runs(
            key.as_ptr(),
            key.len(),
            frame.as_mut_ptr(),
            frame.len(),
            body,
        )
    }
}

/// Judges a frame: the runs that are reported, 0 where it is refused.
pub fn verify_runs(key: &[u8], frame: &[u8], body: usize) -> u64 {
    // SAFETY: as above.
    unsafe { testbench_verify_runs(key.as_ptr(), key.len(), frame.as_ptr(), frame.len(), body) }
}
