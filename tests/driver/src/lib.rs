//! The proved driver, `libdriver.a`, as Rust sees it.

#[link(name = "driver", kind = "static")]
extern "C" {
    fn driver_work_list(
        table: *const u8,
        table_len: usize,
        state: *mut u8,
        state_len: usize,
        lists: *const u8,
        lists_len: usize,
        calls: *const u8,
        calls_len: usize,
        answers: *mut u8,
        answers_len: usize,
    );
    fn driver_work_file(
        file: *const u8,
        file_len: usize,
        table: *mut u8,
        table_len: usize,
        state: *mut u8,
        state_len: usize,
        lists: *const u8,
        lists_len: usize,
        calls: *const u8,
        calls_len: usize,
        answers: *mut u8,
        answers_len: usize,
    ) -> Opening;
    fn driver_restore(
        table: *const u8,
        table_len: usize,
        file: *mut u8,
        file_len: usize,
        other: *mut u8,
        other_len: usize,
    ) -> i32;
    fn driver_start_profiled(table: *const u8, table_len: usize, state: *mut u8, state_len: usize) -> i32;
}

/// How a file or a table began.
#[repr(C)]
struct Opening {
    refusal: i32,
    line: i32,
}

// SAFETY, of all calls: each pointer comes with the length of what it points to, no two of the buffers
// overlap, and no call keeps a pointer.

/// Works the calls of a list in turn on the state, and lays their answers. Each call names a part of the lists as
/// its list of rights.
pub fn work_list(table: &[u8], state: &mut [u8], lists: &[u8], calls: &[u8], answers: &mut [u8]) {
    unsafe {
        driver_work_list(
            table.as_ptr(),
            table.len(),
            state.as_mut_ptr(),
            state.len(),
            lists.as_ptr(),
            lists.len(),
            calls.as_ptr(),
            calls.len(),
            answers.as_mut_ptr(),
            answers.len(),
        );
    }
}

/// Loads a file, starts it and works the calls of a list. Answers the refusal and the line of the load or else
/// those of the start.
pub fn work_file(
    file: &[u8],
    table: &mut [u8],
    state: &mut [u8],
    lists: &[u8],
    calls: &[u8],
    answers: &mut [u8],
) -> (i32, i32) {
    let opening = unsafe {
        driver_work_file(
            file.as_ptr(),
            file.len(),
            table.as_mut_ptr(),
            table.len(),
            state.as_mut_ptr(),
            state.len(),
            lists.as_ptr(),
            lists.len(),
            calls.as_ptr(),
            calls.len(),
            answers.as_mut_ptr(),
            answers.len(),
        )
    };
    (opening.refusal, opening.line)
}

/// Writes the file of a table and loads what was written as the other table. Answers the refusal of the write
/// or else that of the load.
pub fn restore(table: &[u8], file: &mut [u8], other: &mut [u8]) -> i32 {
    unsafe {
        driver_restore(
            table.as_ptr(),
            table.len(),
            file.as_mut_ptr(),
            file.len(),
            other.as_mut_ptr(),
            other.len(),
        )
    }
}

/// Starts a table that keeps to the rental-shop profile. Answers the refusal of the check or else that of the
/// start.
pub fn start_profiled(table: &[u8], state: &mut [u8]) -> i32 {
    unsafe { driver_start_profiled(table.as_ptr(), table.len(), state.as_mut_ptr(), state.len()) }
}
