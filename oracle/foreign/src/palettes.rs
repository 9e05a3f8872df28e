//! palette, palette_two, palette_edit, view.

unsafe extern "C" {
    pub fn probe_nearest(sub: *const f32, sub_len: usize, l: f32, a: f32, b: f32, weight: f32, dist: &mut f32)
    -> usize;
    pub fn probe_view_nearest(
        sub: *const f32,
        sub_len: usize,
        l: f32,
        a: f32,
        b: f32,
        weight: f32,
        dist: &mut f32,
    ) -> usize;
    pub fn probe_tile_distance(
        sub: *const f32,
        sub_len: usize,
        tile: *const f32,
        tile_len: usize,
        counts: *const u32,
        counts_len: usize,
        weight: f32,
    ) -> f32;
    pub fn probe_best_fit(
        pal: *const f32,
        pal_len: usize,
        c: usize,
        have: usize,
        n: usize,
        tile: *const f32,
        tile_len: usize,
        counts: *const u32,
        counts_len: usize,
        weight: f32,
        hints: *mut u32,
        hints_len: usize,
        t: usize,
        dist: &mut f32,
    ) -> usize;
    pub fn probe_nearest_two(
        sub: *const f32,
        sub_len: usize,
        l: f32,
        a: f32,
        b: f32,
        weight: f32,
        dist: &mut f32,
        next: &mut usize,
        second: &mut f32,
    ) -> usize;
    pub fn probe_view_nearest_two(
        sub: *const f32,
        sub_len: usize,
        l: f32,
        a: f32,
        b: f32,
        weight: f32,
        dist: &mut f32,
        next: &mut usize,
        second: &mut f32,
    ) -> usize;
    pub fn probe_best_two(
        pal: *const f32,
        pal_len: usize,
        c: usize,
        have: usize,
        n: usize,
        tile: *const f32,
        tile_len: usize,
        counts: *const u32,
        counts_len: usize,
        weight: f32,
        hints: *mut u32,
        hints_len: usize,
        t: usize,
        dist: &mut f32,
        next: &mut usize,
        second: &mut f32,
    ) -> usize;
    pub fn probe_nudge(pal: *mut f32, len: usize, place: usize, l: f32, a: f32, b: f32, alpha: f32);
    pub fn probe_copy_color(pal: *mut f32, len: usize, c: usize, i: usize, from: usize, to: usize);
    pub fn probe_duplicate_color(pal: *mut f32, len: usize, c: usize, have: usize, i: usize, from: usize);
    pub fn probe_copy_subpalette(pal: *mut f32, len: usize, c: usize, have: usize, from: usize, to: usize);
    pub fn probe_duplicate_palette(pal: *mut f32, len: usize, c: usize, have: usize, n: usize, from: usize);
}
