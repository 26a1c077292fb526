//! The C functions of the archive, as `include/wadroles.h` declares them.
//!
//! Each returns 0 or the number of a refusal, whose place it then writes into `out[0]`. The safe
//! functions of this crate call these; prefer them.
//!
//! # Safety
//!
//! All of them ask the same of their caller. Each table must have the length given after it, in
//! elements, and be aligned for them; an empty one may be null. No written table may overlap
//! another one, or be used by another thread meanwhile. `out` has 4 entries and overlaps no table;
//! the `xy` of [`wadroles_preview`] is a table of 2 entries.

extern "C" {
    /// Tests a mesh and writes its pairing and order, as [`crate::check()`] does.
    ///
    /// # Safety
    ///
    /// As [above](self#safety).
    pub fn wadroles_check(
        coords: *const i32,
        coords_len: usize,
        corners: *const u32,
        corners_len: usize,
        pairing: *mut u32,
        pairing_len: usize,
        order: *mut u32,
        order_len: usize,
        out: *mut u64,
    ) -> u32;

    /// Cuts a mesh at a height, as [`crate::cut()`] does. Success writes the counts of contours and
    /// of points.
    ///
    /// # Safety
    ///
    /// As [above](self#safety).
    pub fn wadroles_cut(
        coords: *const i32,
        coords_len: usize,
        corners: *const u32,
        corners_len: usize,
        pairing: *const u32,
        pairing_len: usize,
        h: i32,
        names: *mut u32,
        names_len: usize,
        points: *mut i32,
        points_len: usize,
        ends: *mut u32,
        ends_len: usize,
        marks: *mut u32,
        marks_len: usize,
        out: *mut u64,
    ) -> u32;

    /// Finds a contour among the points, as [`crate::contour()`] does. It writes the position of
    /// the part's first element (0 where it is empty) and its length in elements.
    ///
    /// # Safety
    ///
    /// As [above](self#safety).
    pub fn wadroles_contour(
        points: *const i32,
        points_len: usize,
        ends: *const u32,
        ends_len: usize,
        j: usize,
        out: *mut u64,
    ) -> u32;

    /// Finds the doubled area of a run of points, as [`crate::area()`] does. Success writes it as
    /// two's complement.
    ///
    /// # Safety
    ///
    /// As [above](self#safety).
    pub fn wadroles_area(points: *const i32, points_len: usize, out: *mut u64) -> u32;

    /// Starts a sweep, as [`crate::start()`] does. Success writes the number of passed vertices, 0.
    ///
    /// # Safety
    ///
    /// As [above](self#safety).
    pub fn wadroles_start(
        coords: *const i32,
        coords_len: usize,
        corners: *const u32,
        corners_len: usize,
        ring: *mut u32,
        ring_len: usize,
        out: *mut u64,
    ) -> u32;

    /// Passes the next vertex, as [`crate::step()`] does. Success writes the number of passed
    /// vertices, and 1 where it was the top, else 0.
    ///
    /// # Safety
    ///
    /// As [above](self#safety).
    pub fn wadroles_step(
        coords: *const i32,
        coords_len: usize,
        corners: *const u32,
        corners_len: usize,
        pairing: *const u32,
        pairing_len: usize,
        order: *const u32,
        order_len: usize,
        ring: *mut u32,
        ring_len: usize,
        passed: usize,
        out: *mut u64,
    ) -> u32;

    /// Rises to a height, as [`crate::layer()`] does. Success writes the number of passed vertices
    /// and the counts of contours and of points.
    ///
    /// # Safety
    ///
    /// As [above](self#safety).
    pub fn wadroles_layer(
        coords: *const i32,
        coords_len: usize,
        corners: *const u32,
        corners_len: usize,
        pairing: *const u32,
        pairing_len: usize,
        order: *const u32,
        order_len: usize,
        ring: *mut u32,
        ring_len: usize,
        passed: usize,
        h: i32,
        names: *mut u32,
        names_len: usize,
        points: *mut i32,
        points_len: usize,
        ends: *mut u32,
        ends_len: usize,
        marks: *mut u32,
        marks_len: usize,
        out: *mut u64,
    ) -> u32;

    /// Writes the layer file of a mesh, as [`crate::all_layers()`] does. Success writes its length.
    ///
    /// # Safety
    ///
    /// As [above](self#safety).
    pub fn wadroles_all_layers(
        coords: *const i32,
        coords_len: usize,
        corners: *const u32,
        corners_len: usize,
        pairing: *const u32,
        pairing_len: usize,
        order: *const u32,
        order_len: usize,
        heights: *const i32,
        heights_len: usize,
        names: *mut u32,
        names_len: usize,
        points: *mut i32,
        points_len: usize,
        ends: *mut u32,
        ends_len: usize,
        marks: *mut u32,
        marks_len: usize,
        ring: *mut u32,
        ring_len: usize,
        output: *mut u8,
        output_len: usize,
        out: *mut u64,
    ) -> u32;

    /// Reads a layer of a layer file, as [`crate::read_layer()`] does. Success writes the number of
    /// layers in the file, the layer's height as two's complement, and its counts of contours and
    /// of points.
    ///
    /// # Safety
    ///
    /// As [above](self#safety).
    pub fn wadroles_read_layer(
        file: *const u8,
        file_len: usize,
        i: usize,
        points: *mut i32,
        points_len: usize,
        ends: *mut u32,
        ends_len: usize,
        out: *mut u64,
    ) -> u32;

    /// Reads a part file, as [`crate::read_part()`] does. Success writes the counts of vertices, of
    /// triangles and of heights.
    ///
    /// # Safety
    ///
    /// As [above](self#safety).
    pub fn wadroles_read_part(
        file: *const u8,
        file_len: usize,
        coords: *mut i32,
        coords_len: usize,
        corners: *mut u32,
        corners_len: usize,
        heights: *mut i32,
        heights_len: usize,
        out: *mut u64,
    ) -> u32;

    /// Finds a call that draws a layer, as [`crate::preview()`] does. Success writes 0 for a move, 1
    /// for a line, 2 for a close and 3 past the last; a move and a line write x and y into `xy`.
    ///
    /// # Safety
    ///
    /// As [above](self#safety).
    pub fn wadroles_preview(
        points: *const i32,
        points_len: usize,
        ends: *const u32,
        ends_len: usize,
        origin_x: f32,
        origin_y: f32,
        number: usize,
        xy: *mut f32,
        out: *mut u64,
    ) -> u32;

    /// Fills a run of calls that draw a layer, as [`crate::preview_run()`] does. Success writes how
    /// many it filled.
    ///
    /// # Safety
    ///
    /// As [above](self#safety).
    pub fn wadroles_preview_run(
        points: *const i32,
        points_len: usize,
        ends: *const u32,
        ends_len: usize,
        origin_x: f32,
        origin_y: f32,
        number: usize,
        kinds: *mut u8,
        kinds_len: usize,
        xy: *mut f32,
        xy_len: usize,
        out: *mut u64,
    ) -> u32;

    /// Cleans a layer, as [`crate::clean()`] does. Success writes the counts of contours and of points
    /// that are left.
    ///
    /// # Safety
    ///
    /// As [above](self#safety).
    pub fn wadroles_clean(
        points: *const i32,
        points_len: usize,
        ends: *const u32,
        ends_len: usize,
        clean_points: *mut i32,
        clean_points_len: usize,
        clean_ends: *mut u32,
        clean_ends_len: usize,
        out: *mut u64,
    ) -> u32;

    /// Writes the layer file of a mesh in the clean profile, as [`crate::all_layers_clean()`] does.
    /// Success writes its length.
    ///
    /// # Safety
    ///
    /// As [above](self#safety).
    pub fn wadroles_all_layers_clean(
        coords: *const i32,
        coords_len: usize,
        corners: *const u32,
        corners_len: usize,
        pairing: *const u32,
        pairing_len: usize,
        order: *const u32,
        order_len: usize,
        heights: *const i32,
        heights_len: usize,
        names: *mut u32,
        names_len: usize,
        points: *mut i32,
        points_len: usize,
        ends: *mut u32,
        ends_len: usize,
        marks: *mut u32,
        marks_len: usize,
        ring: *mut u32,
        ring_len: usize,
        output: *mut u8,
        output_len: usize,
        out: *mut u64,
    ) -> u32;

    /// Reads a layer of a layer file in the clean profile, as [`crate::read_layer_clean()`] does.
    /// Success writes what that of [`wadroles_read_layer`] writes.
    ///
    /// # Safety
    ///
    /// As [above](self#safety).
    pub fn wadroles_read_layer_clean(
        file: *const u8,
        file_len: usize,
        i: usize,
        points: *mut i32,
        points_len: usize,
        ends: *mut u32,
        ends_len: usize,
        out: *mut u64,
    ) -> u32;

    /// Finds what a job is charged for ink, as [`crate::ink()`] does. Success writes the charge.
    ///
    /// # Safety
    ///
    /// As [above](self#safety).
    pub fn wadroles_ink(file: *const u8, file_len: usize, thickness: u32, out: *mut u64) -> u32;

    /// Finds depth and parent of each contour of a layer, as [`crate::nesting()`] does. Success writes
    /// no values.
    ///
    /// # Safety
    ///
    /// As [above](self#safety).
    pub fn wadroles_nesting(
        points: *const i32,
        points_len: usize,
        ends: *const u32,
        ends_len: usize,
        depths: *mut u32,
        depths_len: usize,
        parents: *mut u32,
        parents_len: usize,
        out: *mut u64,
    ) -> u32;
}
