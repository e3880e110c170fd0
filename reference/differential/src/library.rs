//! The proved library.

use crate::implementation::{Implementation, RunArguments};
use sheets::lines::Job;

/// `include/sovzedal.h`.
mod c {
    extern "C" {
        pub fn sovzedal_decode(
            sheet: *const u8,
            sheet_len: usize,
            answer: *mut u32,
            answer_len: usize,
        ) -> u32;

        pub fn sovzedal_typecheck(
            sheet: *const u8,
            sheet_len: usize,
            answer: *mut u32,
            answer_len: usize,
        ) -> u32;

        pub fn sovzedal_run_eager(
            sheet: *const u8,
            sheet_len: usize,
            start: *const u32,
            start_len: usize,
            calls: u32,
            depth: u32,
            enforce: u32,
            cells: *mut u8,
            cells_len: usize,
            posts: *mut u32,
            posts_len: usize,
            answer: *mut u32,
            answer_len: usize,
        ) -> u32;

        pub fn sovzedal_run_lazy(
            sheet: *const u8,
            sheet_len: usize,
            start: *const u32,
            start_len: usize,
            calls: u32,
            depth: u32,
            enforce: u32,
            cells: *mut u8,
            cells_len: usize,
            posts: *mut u32,
            posts_len: usize,
            frames: *mut u32,
            frames_len: usize,
            answer: *mut u32,
            answer_len: usize,
        ) -> u32;

        pub fn sovzedal_block_read(
            block: *const u8,
            block_len: usize,
            address: u32,
            answer: *mut u32,
            answer_len: usize,
        ) -> u32;

        pub fn sovzedal_block_write(
            block: *mut u8,
            block_len: usize,
            address: u32,
            value: u8,
            sheet: *const u8,
            sheet_len: usize,
            cells: *mut u8,
            cells_len: usize,
            posts: *mut u32,
            posts_len: usize,
            answer: *mut u32,
            answer_len: usize,
        ) -> u32;

        pub fn sovzedal_lines_add(
            lines: *mut u64,
            lines_len: usize,
            line: u32,
            offset: usize,
            length: usize,
            calls: u32,
            store: *const u8,
            store_len: usize,
            answer: *mut u32,
            answer_len: usize,
        ) -> u32;

        pub fn sovzedal_lines_serve(
            lines: *mut u64,
            lines_len: usize,
            store: *const u8,
            store_len: usize,
            cells: *mut u8,
            cells_len: usize,
            posts: *mut u32,
            posts_len: usize,
            answer: *mut u32,
            answer_len: usize,
        ) -> u32;

        pub fn sovzedal_explain(
            sheet: *const u8,
            sheet_len: usize,
            privilege: u32,
            chain: *mut u16,
            chain_len: usize,
            answer: *mut u32,
            answer_len: usize,
        ) -> u32;

        pub fn sovzedal_erase(
            sheet: *const u8,
            sheet_len: usize,
            lean: *mut u8,
            lean_len: usize,
            answer: *mut u32,
            answer_len: usize,
        ) -> u32;

        pub fn sovzedal_names(
            sheet: *const u8,
            sheet_len: usize,
            privilege: u32,
            answer: *mut u32,
            answer_len: usize,
        ) -> u32;

        pub fn sovzedal_piece(
            sheet: *const u8,
            sheet_len: usize,
            answer: *mut u32,
            answer_len: usize,
        ) -> u32;

        pub fn sovzedal_term(
            sheet: *const u8,
            sheet_len: usize,
            term: u32,
            answer: *mut u32,
            answer_len: usize,
        ) -> u32;

        pub fn sovzedal_compare(
            unit: *const u8,
            unit_len: usize,
            office: *const u8,
            office_len: usize,
            answer: *mut u32,
            answer_len: usize,
        ) -> u32;

        pub fn sovzedal_record_eager(
            sheet: *const u8,
            sheet_len: usize,
            start: *const u32,
            start_len: usize,
            calls: u32,
            depth: u32,
            enforce: u32,
            cells: *mut u8,
            cells_len: usize,
            posts: *mut u32,
            posts_len: usize,
            record: *mut u8,
            record_len: usize,
            answer: *mut u32,
            answer_len: usize,
        ) -> u32;

        pub fn sovzedal_record_lazy(
            sheet: *const u8,
            sheet_len: usize,
            start: *const u32,
            start_len: usize,
            calls: u32,
            depth: u32,
            enforce: u32,
            cells: *mut u8,
            cells_len: usize,
            posts: *mut u32,
            posts_len: usize,
            frames: *mut u32,
            frames_len: usize,
            record: *mut u8,
            record_len: usize,
            answer: *mut u32,
            answer_len: usize,
        ) -> u32;

        pub fn sovzedal_run_ranges(
            sheet: *const u8,
            sheet_len: usize,
            pairs: *const u16,
            pairs_len: usize,
            start: *const u32,
            start_len: usize,
            calls: u32,
            depth: u32,
            enforce: u32,
            cells: *mut u8,
            cells_len: usize,
            posts: *mut u32,
            posts_len: usize,
            answer: *mut u32,
            answer_len: usize,
        ) -> u32;
    }
}

pub struct Library;

// Each call hands over slices, whose pointers are valid for their lengths, of
// which those written to are not shared.
impl Implementation for Library {
    const NAME: &'static str = "library";

    fn decode(sheet: &[u8], answer: &mut [u32]) -> u32 {
        unsafe {
            c::sovzedal_decode(
                sheet.as_ptr(),
                sheet.len(),
                answer.as_mut_ptr(),
                answer.len(),
            )
        }
    }

    fn typecheck(sheet: &[u8], answer: &mut [u32]) -> u32 {
        unsafe {
            c::sovzedal_typecheck(
                sheet.as_ptr(),
                sheet.len(),
                answer.as_mut_ptr(),
                answer.len(),
            )
        }
    }

    fn run_eager(
        sheet: &[u8],
        arguments: RunArguments,
        cells: &mut [u8],
        posts: &mut [u32],
        answer: &mut [u32],
    ) -> u32 {
        unsafe {
            c::sovzedal_run_eager(
                sheet.as_ptr(),
                sheet.len(),
                arguments.start.as_ptr(),
                arguments.start.len(),
                arguments.calls,
                arguments.open_calls,
                arguments.enforce,
                cells.as_mut_ptr(),
                cells.len(),
                posts.as_mut_ptr(),
                posts.len(),
                answer.as_mut_ptr(),
                answer.len(),
            )
        }
    }

    fn run_lazy(
        sheet: &[u8],
        arguments: RunArguments,
        cells: &mut [u8],
        posts: &mut [u32],
        frames: &mut [u32],
        answer: &mut [u32],
    ) -> u32 {
        unsafe {
            c::sovzedal_run_lazy(
                sheet.as_ptr(),
                sheet.len(),
                arguments.start.as_ptr(),
                arguments.start.len(),
                arguments.calls,
                arguments.open_calls,
                arguments.enforce,
                cells.as_mut_ptr(),
                cells.len(),
                posts.as_mut_ptr(),
                posts.len(),
                frames.as_mut_ptr(),
                frames.len(),
                answer.as_mut_ptr(),
                answer.len(),
            )
        }
    }

    fn block_read(block: &[u8], address: u32, answer: &mut [u32]) -> u32 {
        unsafe {
            c::sovzedal_block_read(
                block.as_ptr(),
                block.len(),
                address,
                answer.as_mut_ptr(),
                answer.len(),
            )
        }
    }

    fn block_write(
        block: &mut [u8],
        address: u32,
        value: u8,
        sheet: &[u8],
        cells: &mut [u8],
        posts: &mut [u32],
        answer: &mut [u32],
    ) -> u32 {
        unsafe {
            c::sovzedal_block_write(
                block.as_mut_ptr(),
                block.len(),
                address,
                value,
                sheet.as_ptr(),
                sheet.len(),
                cells.as_mut_ptr(),
                cells.len(),
                posts.as_mut_ptr(),
                posts.len(),
                answer.as_mut_ptr(),
                answer.len(),
            )
        }
    }

    fn lines_add(lines: &mut [u64], line: u32, job: Job, store: &[u8], answer: &mut [u32]) -> u32 {
        unsafe {
            c::sovzedal_lines_add(
                lines.as_mut_ptr(),
                lines.len(),
                line,
                job.offset as usize,
                job.length as usize,
                job.calls,
                store.as_ptr(),
                store.len(),
                answer.as_mut_ptr(),
                answer.len(),
            )
        }
    }

    fn lines_serve(
        lines: &mut [u64],
        store: &[u8],
        cells: &mut [u8],
        posts: &mut [u32],
        answer: &mut [u32],
    ) -> u32 {
        unsafe {
            c::sovzedal_lines_serve(
                lines.as_mut_ptr(),
                lines.len(),
                store.as_ptr(),
                store.len(),
                cells.as_mut_ptr(),
                cells.len(),
                posts.as_mut_ptr(),
                posts.len(),
                answer.as_mut_ptr(),
                answer.len(),
            )
        }
    }

    fn explain(sheet: &[u8], privilege: u32, chain: &mut [u16], answer: &mut [u32]) -> u32 {
        unsafe {
            c::sovzedal_explain(
                sheet.as_ptr(),
                sheet.len(),
                privilege,
                chain.as_mut_ptr(),
                chain.len(),
                answer.as_mut_ptr(),
                answer.len(),
            )
        }
    }

    fn erase(sheet: &[u8], lean: &mut [u8], answer: &mut [u32]) -> u32 {
        unsafe {
            c::sovzedal_erase(
                sheet.as_ptr(),
                sheet.len(),
                lean.as_mut_ptr(),
                lean.len(),
                answer.as_mut_ptr(),
                answer.len(),
            )
        }
    }

    fn names(sheet: &[u8], privilege: u32, answer: &mut [u32]) -> u32 {
        unsafe {
            c::sovzedal_names(
                sheet.as_ptr(),
                sheet.len(),
                privilege,
                answer.as_mut_ptr(),
                answer.len(),
            )
        }
    }

    fn piece(sheet: &[u8], answer: &mut [u32]) -> u32 {
        unsafe {
            c::sovzedal_piece(
                sheet.as_ptr(),
                sheet.len(),
                answer.as_mut_ptr(),
                answer.len(),
            )
        }
    }

    fn term(sheet: &[u8], term: u32, answer: &mut [u32]) -> u32 {
        unsafe {
            c::sovzedal_term(
                sheet.as_ptr(),
                sheet.len(),
                term,
                answer.as_mut_ptr(),
                answer.len(),
            )
        }
    }

    fn compare(unit: &[u8], office: &[u8], answer: &mut [u32]) -> u32 {
        unsafe {
            c::sovzedal_compare(
                unit.as_ptr(),
                unit.len(),
                office.as_ptr(),
                office.len(),
                answer.as_mut_ptr(),
                answer.len(),
            )
        }
    }

    fn record_eager(
        sheet: &[u8],
        arguments: RunArguments,
        cells: &mut [u8],
        posts: &mut [u32],
        record: &mut [u8],
        answer: &mut [u32],
    ) -> u32 {
        unsafe {
            c::sovzedal_record_eager(
                sheet.as_ptr(),
                sheet.len(),
                arguments.start.as_ptr(),
                arguments.start.len(),
                arguments.calls,
                arguments.open_calls,
                arguments.enforce,
                cells.as_mut_ptr(),
                cells.len(),
                posts.as_mut_ptr(),
                posts.len(),
                record.as_mut_ptr(),
                record.len(),
                answer.as_mut_ptr(),
                answer.len(),
            )
        }
    }

    fn record_lazy(
        sheet: &[u8],
        arguments: RunArguments,
        cells: &mut [u8],
        posts: &mut [u32],
        frames: &mut [u32],
        record: &mut [u8],
        answer: &mut [u32],
    ) -> u32 {
        unsafe {
            c::sovzedal_record_lazy(
                sheet.as_ptr(),
                sheet.len(),
                arguments.start.as_ptr(),
                arguments.start.len(),
                arguments.calls,
                arguments.open_calls,
                arguments.enforce,
                cells.as_mut_ptr(),
                cells.len(),
                posts.as_mut_ptr(),
                posts.len(),
                frames.as_mut_ptr(),
                frames.len(),
                record.as_mut_ptr(),
                record.len(),
                answer.as_mut_ptr(),
                answer.len(),
            )
        }
    }

    fn run_ranges(
        sheet: &[u8],
        pairs: &[u16],
        arguments: RunArguments,
        cells: &mut [u8],
        posts: &mut [u32],
        answer: &mut [u32],
    ) -> u32 {
        unsafe {
            c::sovzedal_run_ranges(
                sheet.as_ptr(),
                sheet.len(),
                pairs.as_ptr(),
                pairs.len(),
                arguments.start.as_ptr(),
                arguments.start.len(),
                arguments.calls,
                arguments.open_calls,
                arguments.enforce,
                cells.as_mut_ptr(),
                cells.len(),
                posts.as_mut_ptr(),
                posts.len(),
                answer.as_mut_ptr(),
                answer.len(),
            )
        }
    }
}
