//! The archive's C functions, as `include/hsc.h` has them, behind safe calls on slices.

use crate::subject::Subject;

extern "C" {
    fn hsc_event_check(event: *const u8, event_len: usize) -> u32;
    fn hsc_step(snapshot: *mut u8, snapshot_len: usize, event: *const u8, event_len: usize) -> u64;
    fn hsc_read(snapshot: *const u8, snapshot_len: usize, fields: *mut i32) -> u64;
    fn hsc_replay(image: *mut u8, image_len: usize, last: *mut u8) -> u64;
    fn hsc_mend(
        image: *mut u8,
        image_len: usize,
        first: u64,
        patch: *const u8,
        patch_len: usize,
        span: *mut u32,
    ) -> u64;
    fn hsc_compare(
        first: *const u8,
        first_len: usize,
        second: *const u8,
        second_len: usize,
        row: *mut u32,
        row_len: usize,
        count: *mut u32,
    ) -> u64;
    fn hsc_rest(
        first: *const u8,
        first_len: usize,
        second: *const u8,
        second_len: usize,
        part: *mut u64,
    ) -> u32;
    fn hsc_draw(
        snapshot: *mut u8,
        snapshot_len: usize,
        events: *const u8,
        events_len: usize,
        row: *mut i32,
        row_len: usize,
    ) -> u64;
    fn hsc_first_difference(first: *const u8, first_len: usize, second: *const u8, second_len: usize) -> u64;
    fn hsc_reader_new(reader: *mut u8);
    fn hsc_reader_feed(
        reader: *mut u8,
        chunk: *const u8,
        chunk_len: usize,
        buffer: *mut u8,
        buffer_len: usize,
        taken: *mut u64,
    ) -> u64;
    fn hsc_reader_end(reader: *mut u8, buffer: *mut u8, buffer_len: usize) -> u64;
}

pub struct Archive;

// SAFETY of every call: each pointer comes from a slice, an array or a number, of the length
// passed or fixed by the header, which lives through the call, and none that may be written to
// overlaps another.
impl Subject for Archive {
    fn event_check(&self, event: &[u8]) -> u32 {
        unsafe { hsc_event_check(event.as_ptr(), event.len()) }
    }

    fn step(&self, snapshot: &mut [u8], event: &[u8]) -> u64 {
        unsafe { hsc_step(snapshot.as_mut_ptr(), snapshot.len(), event.as_ptr(), event.len()) }
    }

    fn read(&self, snapshot: &[u8], fields: &mut [i32; 32]) -> u64 {
        unsafe { hsc_read(snapshot.as_ptr(), snapshot.len(), fields.as_mut_ptr()) }
    }

    fn replay(&self, image: &mut [u8], last: &mut [u8; 68]) -> u64 {
        unsafe { hsc_replay(image.as_mut_ptr(), image.len(), last.as_mut_ptr()) }
    }

    fn mend(&self, image: &mut [u8], first: u64, patch: &[u8], span: &mut [u32; 3]) -> u64 {
        unsafe {
            hsc_mend(image.as_mut_ptr(), image.len(), first, patch.as_ptr(), patch.len(), span.as_mut_ptr())
        }
    }

    fn compare(&self, first: &[u8], second: &[u8], row: &mut [u32], count: &mut u32) -> u64 {
        unsafe {
            hsc_compare(
                first.as_ptr(),
                first.len(),
                second.as_ptr(),
                second.len(),
                row.as_mut_ptr(),
                row.len(),
                count,
            )
        }
    }

    fn rest(&self, first: &[u8], second: &[u8], part: &mut [u64; 2]) -> u32 {
        unsafe { hsc_rest(first.as_ptr(), first.len(), second.as_ptr(), second.len(), part.as_mut_ptr()) }
    }

    fn draw(&self, snapshot: &mut [u8], events: &[u8], row: &mut [i32]) -> u64 {
        unsafe {
            hsc_draw(
                snapshot.as_mut_ptr(),
                snapshot.len(),
                events.as_ptr(),
                events.len(),
                row.as_mut_ptr(),
                row.len(),
            )
        }
    }

    fn first_difference(&self, first: &[u8], second: &[u8]) -> u64 {
        unsafe { hsc_first_difference(first.as_ptr(), first.len(), second.as_ptr(), second.len()) }
    }

    fn reader_new(&self, reader: &mut [u8; 116]) {
        unsafe { hsc_reader_new(reader.as_mut_ptr()) }
    }

    fn reader_feed(
        &self,
        reader: &mut [u8; 116],
        chunk: &[u8],
        buffer: &mut [u8],
        taken: &mut [u64; 2],
    ) -> u64 {
        unsafe {
            hsc_reader_feed(
                reader.as_mut_ptr(),
                chunk.as_ptr(),
                chunk.len(),
                buffer.as_mut_ptr(),
                buffer.len(),
                taken.as_mut_ptr(),
            )
        }
    }

    fn reader_end(&self, reader: &mut [u8; 116], buffer: &mut [u8]) -> u64 {
        unsafe { hsc_reader_end(reader.as_mut_ptr(), buffer.as_mut_ptr(), buffer.len()) }
    }
}
