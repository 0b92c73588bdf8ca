//! The foreign calls: `include/rumbleog.h` as Rust sees it, here and nowhere
//! else.
//!
//! Each function takes slices where C takes a pointer and a number of elements,
//! and by reference the numbers that the call writes; it returns the number of
//! the refusal, one of [`number`](crate::number). The C functions themselves are
//! in [`c`].

/// The C functions, with the parameters of the header: written here, and
/// handed to the macro `$make` of this module.
#[macro_export]
#[doc(hidden)]
macro_rules! c_functions {
    ($make:ident $($prefix:literal)?) => {
        $crate::$make! { $($prefix)?
            list(
                input: *const u8,
                input_length: usize,
                output: *mut u8,
                output_length: usize,
                line: *mut u64,
                length: *mut u64,
            )

            check_table(
                days: *const u16,
                days_length: usize,
                first: *const u16,
                first_length: usize,
                second: *const u16,
                second_length: usize,
                place: *mut u64,
            )

            window_ring(
                days: *const u16,
                days_length: usize,
                first: *const u16,
                first_length: usize,
                second: *const u16,
                second_length: usize,
                k: u16,
                s: u16,
                e: u16,
                marks: *mut u8,
                marks_length: usize,
                scratch: *mut u16,
                scratch_length: usize,
                place: *mut u64,
                count: *mut u64,
            )

            label_groups(
                days: *const u16,
                days_length: usize,
                first: *const u16,
                first_length: usize,
                second: *const u16,
                second_length: usize,
                k: u16,
                s: u16,
                e: u16,
                labels: *mut u16,
                labels_length: usize,
                scratch: *mut u16,
                scratch_length: usize,
                place: *mut u64,
                count: *mut u64,
            )

            mark_group(
                days: *const u16,
                days_length: usize,
                first: *const u16,
                first_length: usize,
                second: *const u16,
                second_length: usize,
                k: u16,
                s: u16,
                e: u16,
                account: u16,
                marks: *mut u8,
                marks_length: usize,
                scratch: *mut u16,
                scratch_length: usize,
                place: *mut u64,
                count: *mut u64,
            )

            core_times(
                days: *const u16,
                days_length: usize,
                first: *const u16,
                first_length: usize,
                second: *const u16,
                second_length: usize,
                k: u16,
                ts: u16,
                te: u16,
                s: u16,
                accounts: *mut u16,
                accounts_length: usize,
                rows: *mut u16,
                rows_length: usize,
                scratch: *mut u16,
                scratch_length: usize,
                place: *mut u64,
            )

            minimal_windows(
                days: *const u16,
                days_length: usize,
                first: *const u16,
                first_length: usize,
                second: *const u16,
                second_length: usize,
                k: u16,
                ts: u16,
                te: u16,
                row: *mut u16,
                row_length: usize,
                start: *mut u16,
                start_length: usize,
                end: *mut u16,
                end_length: usize,
                scratch: *mut u16,
                scratch_length: usize,
                place: *mut u64,
                count: *mut u64,
            )

            listing(
                days: *const u16,
                days_length: usize,
                first: *const u16,
                first_length: usize,
                second: *const u16,
                second_length: usize,
                k: u16,
                ts: u16,
                te: u16,
                start: *mut u16,
                start_length: usize,
                end: *mut u16,
                end_length: usize,
                rows: *mut u16,
                rows_length: usize,
                windows: *mut u32,
                windows_length: usize,
                scratch: *mut u16,
                scratch_length: usize,
                place: *mut u64,
                count: *mut u64,
                sum: *mut u64,
                empty: *mut u64,
            )

            recall(
                days: *const u16,
                days_length: usize,
                first: *const u16,
                first_length: usize,
                second: *const u16,
                second_length: usize,
                row: *const u16,
                row_length: usize,
                start: *const u16,
                start_length: usize,
                end: *const u16,
                end_length: usize,
                s: u16,
                e: u16,
                marks: *mut u8,
                marks_length: usize,
                place: *mut u64,
            )

            longest_list(ts: u16, te: u16, place: *mut u64, count: *mut u64)

            read_table(
                text: *const u8,
                text_length: usize,
                days: *mut u16,
                days_length: usize,
                first: *mut u16,
                first_length: usize,
                second: *mut u16,
                second_length: usize,
                place: *mut u64,
                count: *mut u64,
            )

            write_table(
                days: *const u16,
                days_length: usize,
                first: *const u16,
                first_length: usize,
                second: *const u16,
                second_length: usize,
                text: *mut u8,
                text_length: usize,
                place: *mut u64,
                length: *mut u64,
            )
        }
    };
}

/// C functions that are linked, their names starting with `$prefix`.
#[macro_export]
#[doc(hidden)]
macro_rules! linked {
    ($prefix:literal $($name:ident($($parameter:ident: $type:ty),* $(,)?))*) => {
        extern "C" {
            $(
                #[link_name = concat!($prefix, stringify!($name))]
                pub fn $name($($parameter: $type),*) -> u32;
            )*
        }
    };
}

/// C functions that are found while the program runs: `load` comes first.
#[macro_export]
#[doc(hidden)]
macro_rules! loaded {
    ($($name:ident($($parameter:ident: $type:ty),* $(,)?))*) => {
        #[allow(non_upper_case_globals)]
        mod found {
            $(
                pub static $name: std::sync::OnceLock<unsafe extern "C" fn($($type),*) -> u32> =
                    std::sync::OnceLock::new();
            )*
        }

        /// Takes each function from where `find` has it. One that it has not must not be called.
        ///
        /// # Safety
        ///
        /// What `find` gives for a name is the header's function of that name, and stays.
        pub unsafe fn load(find: impl Fn(&str) -> Option<std::ptr::NonNull<std::ffi::c_void>>) {
            $(
                if let Some(place) = find(concat!("rumbleog_", stringify!($name))) {
                    // SAFETY: the caller's word; a function's pointer is as wide as any other.
                    let _ = found::$name.set(unsafe { std::mem::transmute(place) });
                }
            )*
        }

        $(
            #[allow(clippy::missing_safety_doc, clippy::too_many_arguments)]
            pub unsafe fn $name($($parameter: $type),*) -> u32 {
                match found::$name.get() {
                    // SAFETY: the caller's word, as for the function itself.
                    Some(call) => unsafe { call($($parameter),*) },
                    None => panic!("rumbleog_{} is not loaded", stringify!($name)),
                }
            }
        )*
    };
}

/// Declares the calls of the header: a module `c` with the C functions, and
/// over each a safe function. `linked` with a prefix are those of a linked
/// library; this module has the archive's, the benchmark those of its C peer.
/// `loaded` are those of an archive that the benchmark loads.
#[macro_export]
#[doc(hidden)]
macro_rules! foreign_calls {
    ($make:ident $($prefix:literal)?) => {
        use $crate::{Days, Query, Table, Windows};

        /// The C functions, with the parameters of the header.
        #[allow(missing_docs)]
        pub mod c {
            $crate::c_functions!($make $($prefix)?);
        }

        /// The header's `list`.
        pub fn list(input: &[u8], output: &mut [u8], line: &mut u64, length: &mut u64) -> u32 {
            // SAFETY: live slices, each with its own length; what is written is borrowed alone.
            unsafe {
                c::list(
                    input.as_ptr(),
                    input.len(),
                    output.as_mut_ptr(),
                    output.len(),
                    line,
                    length,
                )
            }
        }

        /// The header's `check_table`.
        pub fn check_table(table: Table, place: &mut u64) -> u32 {
            // SAFETY: live slices, each with its own length; what is written is borrowed alone.
            unsafe {
                c::check_table(
                    table.days.as_ptr(),
                    table.days.len(),
                    table.first.as_ptr(),
                    table.first.len(),
                    table.second.as_ptr(),
                    table.second.len(),
                    place,
                )
            }
        }

        /// The header's `window_ring`.
        pub fn window_ring(
            table: Table,
            query: Query,
            window: Days,
            marks: &mut [u8],
            scratch: &mut [u16],
            place: &mut u64,
            count: &mut u64,
        ) -> u32 {
            // SAFETY: live slices, each with its own length; what is written is borrowed alone.
            unsafe {
                c::window_ring(
                    table.days.as_ptr(),
                    table.days.len(),
                    table.first.as_ptr(),
                    table.first.len(),
                    table.second.as_ptr(),
                    table.second.len(),
                    query.k,
                    *window.start(),
                    *window.end(),
                    marks.as_mut_ptr(),
                    marks.len(),
                    scratch.as_mut_ptr(),
                    scratch.len(),
                    place,
                    count,
                )
            }
        }

        /// The header's `label_groups`.
        pub fn label_groups(
            table: Table,
            query: Query,
            window: Days,
            labels: &mut [u16],
            scratch: &mut [u16],
            place: &mut u64,
            count: &mut u64,
        ) -> u32 {
            // SAFETY: live slices, each with its own length; what is written is borrowed alone.
            unsafe {
                c::label_groups(
                    table.days.as_ptr(),
                    table.days.len(),
                    table.first.as_ptr(),
                    table.first.len(),
                    table.second.as_ptr(),
                    table.second.len(),
                    query.k,
                    *window.start(),
                    *window.end(),
                    labels.as_mut_ptr(),
                    labels.len(),
                    scratch.as_mut_ptr(),
                    scratch.len(),
                    place,
                    count,
                )
            }
        }

        /// The header's `mark_group`.
        #[allow(clippy::too_many_arguments)]
        pub fn mark_group(
            table: Table,
            query: Query,
            window: Days,
            account: u16,
            marks: &mut [u8],
            scratch: &mut [u16],
            place: &mut u64,
            count: &mut u64,
        ) -> u32 {
            // SAFETY: live slices, each with its own length; what is written is borrowed alone.
            unsafe {
                c::mark_group(
                    table.days.as_ptr(),
                    table.days.len(),
                    table.first.as_ptr(),
                    table.first.len(),
                    table.second.as_ptr(),
                    table.second.len(),
                    query.k,
                    *window.start(),
                    *window.end(),
                    account,
                    marks.as_mut_ptr(),
                    marks.len(),
                    scratch.as_mut_ptr(),
                    scratch.len(),
                    place,
                    count,
                )
            }
        }

        /// The header's `core_times`.
        #[allow(clippy::too_many_arguments)]
        pub fn core_times(
            table: Table,
            query: Query,
            range: Days,
            start: u16,
            accounts: &mut [u16],
            rows: &mut [u16],
            scratch: &mut [u16],
            place: &mut u64,
        ) -> u32 {
            // SAFETY: live slices, each with its own length; what is written is borrowed alone.
            unsafe {
                c::core_times(
                    table.days.as_ptr(),
                    table.days.len(),
                    table.first.as_ptr(),
                    table.first.len(),
                    table.second.as_ptr(),
                    table.second.len(),
                    query.k,
                    *range.start(),
                    *range.end(),
                    start,
                    accounts.as_mut_ptr(),
                    accounts.len(),
                    rows.as_mut_ptr(),
                    rows.len(),
                    scratch.as_mut_ptr(),
                    scratch.len(),
                    place,
                )
            }
        }

        /// The header's `minimal_windows`.
        #[allow(clippy::too_many_arguments)]
        pub fn minimal_windows(
            table: Table,
            query: Query,
            range: Days,
            row: &mut [u16],
            start: &mut [u16],
            end: &mut [u16],
            scratch: &mut [u16],
            place: &mut u64,
            count: &mut u64,
        ) -> u32 {
            // SAFETY: live slices, each with its own length; what is written is borrowed alone.
            unsafe {
                c::minimal_windows(
                    table.days.as_ptr(),
                    table.days.len(),
                    table.first.as_ptr(),
                    table.first.len(),
                    table.second.as_ptr(),
                    table.second.len(),
                    query.k,
                    *range.start(),
                    *range.end(),
                    row.as_mut_ptr(),
                    row.len(),
                    start.as_mut_ptr(),
                    start.len(),
                    end.as_mut_ptr(),
                    end.len(),
                    scratch.as_mut_ptr(),
                    scratch.len(),
                    place,
                    count,
                )
            }
        }

        /// The header's `listing`.
        #[allow(clippy::too_many_arguments)]
        pub fn listing(
            table: Table,
            query: Query,
            range: Days,
            start: &mut [u16],
            end: &mut [u16],
            rows: &mut [u16],
            windows: &mut [u32],
            scratch: &mut [u16],
            place: &mut u64,
            count: &mut u64,
            sum: &mut u64,
            empty: &mut u64,
        ) -> u32 {
            // SAFETY: live slices, each with its own length; what is written is borrowed alone.
            unsafe {
                c::listing(
                    table.days.as_ptr(),
                    table.days.len(),
                    table.first.as_ptr(),
                    table.first.len(),
                    table.second.as_ptr(),
                    table.second.len(),
                    query.k,
                    *range.start(),
                    *range.end(),
                    start.as_mut_ptr(),
                    start.len(),
                    end.as_mut_ptr(),
                    end.len(),
                    rows.as_mut_ptr(),
                    rows.len(),
                    windows.as_mut_ptr(),
                    windows.len(),
                    scratch.as_mut_ptr(),
                    scratch.len(),
                    place,
                    count,
                    sum,
                    empty,
                )
            }
        }

        /// The header's `recall`.
        pub fn recall(
            table: Table,
            windows: Windows,
            window: Days,
            marks: &mut [u8],
            place: &mut u64,
        ) -> u32 {
            // SAFETY: live slices, each with its own length; what is written is borrowed alone.
            unsafe {
                c::recall(
                    table.days.as_ptr(),
                    table.days.len(),
                    table.first.as_ptr(),
                    table.first.len(),
                    table.second.as_ptr(),
                    table.second.len(),
                    windows.row.as_ptr(),
                    windows.row.len(),
                    windows.start.as_ptr(),
                    windows.start.len(),
                    windows.end.as_ptr(),
                    windows.end.len(),
                    *window.start(),
                    *window.end(),
                    marks.as_mut_ptr(),
                    marks.len(),
                    place,
                )
            }
        }

        /// The header's `longest_list`.
        pub fn longest_list(range: Days, place: &mut u64, count: &mut u64) -> u32 {
            // SAFETY: two live numbers, each borrowed alone.
            unsafe { c::longest_list(*range.start(), *range.end(), place, count) }
        }

        /// The header's `read_table`.
        pub fn read_table(
            text: &[u8],
            days: &mut [u16],
            first: &mut [u16],
            second: &mut [u16],
            place: &mut u64,
            count: &mut u64,
        ) -> u32 {
            // SAFETY: live slices, each with its own length; what is written is borrowed alone.
            unsafe {
                c::read_table(
                    text.as_ptr(),
                    text.len(),
                    days.as_mut_ptr(),
                    days.len(),
                    first.as_mut_ptr(),
                    first.len(),
                    second.as_mut_ptr(),
                    second.len(),
                    place,
                    count,
                )
            }
        }

        /// The header's `write_table`.
        pub fn write_table(
            table: Table,
            text: &mut [u8],
            place: &mut u64,
            length: &mut u64,
        ) -> u32 {
            // SAFETY: live slices, each with its own length; what is written is borrowed alone.
            unsafe {
                c::write_table(
                    table.days.as_ptr(),
                    table.days.len(),
                    table.first.as_ptr(),
                    table.first.len(),
                    table.second.as_ptr(),
                    table.second.len(),
                    text.as_mut_ptr(),
                    text.len(),
                    place,
                    length,
                )
            }
        }
    };
}

foreign_calls!(linked "rumbleog_");
