//! The sheet's reader and writer.

unsafe extern "C" {
    pub fn probe_sheet_read(
        size: usize,
        bytes: *const u8,
        bytes_len: usize,
        tiles: *mut u32,
        tiles_len: usize,
        colours: *mut f32,
        colours_len: usize,
        counts: *mut u32,
        counts_len: usize,
        palette: *mut f32,
        palette_len: usize,
        s: &mut usize,
        c: &mut usize,
        t: &mut usize,
        weight: &mut f32,
        fault: &mut usize,
    ) -> u32;
    pub fn probe_sheet_write(
        size: usize,
        s: usize,
        c: usize,
        t: usize,
        weight: f32,
        tiles: *const u32,
        tiles_len: usize,
        colours: *const f32,
        colours_len: usize,
        counts: *const u32,
        counts_len: usize,
        palette: *const f32,
        palette_len: usize,
        dst: *mut u8,
        dst_len: usize,
        written: &mut usize,
        fault: &mut usize,
    ) -> u32;
}
