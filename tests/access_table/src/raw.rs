//! The two calls themselves, in the shape that `include/access_table.h` gives them.

/// The declarations. Nothing holds them against the Rattle source: a `&[T]` there
/// is a pointer and then a length here.
mod link {
    extern "C" {
        pub fn access_run(
            image: *const u8,
            image_len: usize,
            schedule: *const u8,
            schedule_len: usize,
            answers: *mut u8,
            answers_len: usize,
            image_out: *mut u8,
            image_out_len: usize,
            lengths: *mut u64,
            lengths_len: usize,
        ) -> u64;

        pub fn access_inspect(
            image: *const u8,
            image_len: usize,
            finding: *mut u64,
            finding_len: usize,
        ) -> u64;
    }
}

/// From the table in `image` (empty: no table yet) runs the schedule, and
/// writes its answer lines, the image of the table after it, and how many
/// bytes each of the two has. Gives 0, or the refusal: 15, 12 or 13 for the image,
/// and then 14 for a schedule over [`MAX_SCHEDULE`](crate::MAX_SCHEDULE) bytes
/// or where a buffer is too short (`lengths`: for 2 numbers). On a refusal
/// every buffer is as found.
///
/// [`run_into`](crate::run_into) says the same with a `Result`.
pub fn access_run(
    image: &[u8],
    schedule: &[u8],
    answers: &mut [u8],
    image_out: &mut [u8],
    lengths: &mut [u64],
) -> u64 {
    // SAFETY: the contract that is proved of `access_run` has no `requires`.
    // What it takes for granted is what a Rust slice is: each pointer is not
    // null, aligned and valid for its length, and no `&mut` one overlaps any
    // other. It keeps no pointer.
    unsafe {
        link::access_run(
            image.as_ptr(),
            image.len(),
            schedule.as_ptr(),
            schedule.len(),
            answers.as_mut_ptr(),
            answers.len(),
            image_out.as_mut_ptr(),
            image_out.len(),
            lengths.as_mut_ptr(),
            lengths.len(),
        )
    }
}

/// Says what is wrong with an image, and where: gives 0 and writes five numbers
/// to the front of `finding`. First 0 if the image would be loaded, or its
/// refusal: 15, 12 or 13. Then the place: for 12 the first block whose check is
/// wrong; for 13 the first block that cannot stand where it is, or the count of
/// blocks if only other rules break; else 0. Then the table's desks, cells and
/// open writes, each 0 if it is refused. What lies behind stays. Where `finding`
/// is shorter than 5 gives 14, and leaves it as found.
///
/// No bytes are an image that is refused with 15 here.
/// [`inspect`](crate::inspect) says the same with an enum.
pub fn access_inspect(image: &[u8], finding: &mut [u64]) -> u64 {
    // SAFETY: as above. The contract that is proved of `access_inspect` has no
    // `requires` either, and it keeps no pointer.
    unsafe {
        link::access_inspect(
            image.as_ptr(),
            image.len(),
            finding.as_mut_ptr(),
            finding.len(),
        )
    }
}
