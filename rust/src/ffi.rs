//! The functions of include/lizardwire.h, as they are declared there.

#[repr(C)]
pub(crate) struct LwOutline {
    pub refusal: usize,
    pub ring: usize,
    pub first: usize,
    pub second: usize,
    pub value: f64,
    pub count: usize,
}

#[repr(C)]
pub(crate) struct LwPlace {
    pub refusal: usize,
    pub first: usize,
    pub place: usize,
}

#[repr(C)]
pub(crate) struct LwNearest {
    pub refusal: usize,
    pub first: usize,
    pub distance: f64,
    pub east: f64,
    pub north: f64,
}

#[repr(C)]
pub(crate) struct LwArea {
    pub refusal: usize,
    pub area: f64,
}

#[repr(C)]
pub(crate) struct LwLength {
    pub refusal: usize,
    pub length: f64,
}

#[repr(C)]
pub(crate) struct LwMeeting {
    pub refusal: usize,
    pub meets: usize,
    pub outer: usize,
    pub inner: usize,
    pub swapped: usize,
}

#[repr(C)]
pub(crate) struct LwPoint {
    pub refusal: usize,
    pub east: f64,
    pub north: f64,
}

#[repr(C)]
pub(crate) struct LwEdge {
    pub refusal: usize,
    pub start_east: f64,
    pub start_north: f64,
    pub end_east: f64,
    pub end_north: f64,
}

#[repr(C)]
pub(crate) struct LwOffset {
    pub refusal: usize,
    pub ring: usize,
    pub first: usize,
    pub second: usize,
    pub value: f64,
    pub count: usize,
    pub collapses: usize,
    pub divides: usize,
    pub joins: usize,
}

extern "C" {
    pub(crate) fn lw_version() -> usize;
    pub(crate) fn lw_hypot(x: f64, y: f64) -> f64;
    pub(crate) fn lw_check(numbers: *const f64, count: usize) -> LwOutline;
    pub(crate) fn lw_outline(
        numbers: *const f64,
        count: usize,
        out: *mut f64,
        out_count: usize,
    ) -> LwOutline;
    pub(crate) fn lw_contains(outline: *const f64, count: usize, east: f64, north: f64) -> LwPlace;
    pub(crate) fn lw_nearest(outline: *const f64, count: usize, east: f64, north: f64)
        -> LwNearest;
    pub(crate) fn lw_area(outline: *const f64, count: usize) -> LwArea;
    pub(crate) fn lw_perimeter(outline: *const f64, count: usize) -> LwLength;
    pub(crate) fn lw_extent(outline: *const f64, count: usize) -> LwLength;
    pub(crate) fn lw_clearance(
        first: *const f64,
        first_count: usize,
        second: *const f64,
        second_count: usize,
    ) -> LwLength;
    pub(crate) fn lw_meeting(
        first: *const f64,
        first_count: usize,
        second: *const f64,
        second_count: usize,
    ) -> LwMeeting;
    pub(crate) fn lw_vertex(outline: *const f64, count: usize, k: usize) -> LwPoint;
    pub(crate) fn lw_edge(outline: *const f64, count: usize, k: usize) -> LwEdge;
    pub(crate) fn lw_inset(
        outline: *const f64,
        count: usize,
        distance: f64,
        out: *mut f64,
        out_count: usize,
    ) -> LwOffset;
    pub(crate) fn lw_outset(
        outline: *const f64,
        count: usize,
        distance: f64,
        out: *mut f64,
        out_count: usize,
    ) -> LwOffset;
}

#[repr(C)]
pub(crate) struct LwRegion {
    pub refusal: usize,
    pub ring: usize,
    pub first: usize,
    pub second: usize,
    pub value: f64,
    pub rings: usize,
    pub counts: [usize; 9],
}

#[repr(C)]
pub(crate) struct LwRegionOffset {
    pub refusal: usize,
    pub ring: usize,
    pub first: usize,
    pub second: usize,
    pub value: f64,
    pub rings: usize,
    pub counts: [usize; 9],
    pub collapses: usize,
    pub divides: usize,
    pub joins: usize,
}

extern "C" {
    pub(crate) fn lw_region(
        numbers: *const f64,
        count: usize,
        lengths: *const usize,
        rings: usize,
        out: *mut f64,
        out_count: usize,
    ) -> LwRegion;
    pub(crate) fn lw_region_inset(
        numbers: *const f64,
        count: usize,
        lengths: *const usize,
        rings: usize,
        distance: f64,
        out: *mut f64,
        out_count: usize,
    ) -> LwRegionOffset;
    pub(crate) fn lw_given_region(
        numbers: *const f64,
        count: usize,
        counts: *const usize,
        rings: usize,
        out: *mut f64,
        out_count: usize,
    ) -> LwRegion;
    pub(crate) fn lw_without_holes(
        outline: *const f64,
        count: usize,
        out: *mut f64,
        out_count: usize,
    ) -> LwRegion;
    pub(crate) fn lw_stored_region(
        numbers: *const f64,
        count: usize,
        counts: *const usize,
        rings: usize,
    ) -> LwRegion;
    pub(crate) fn lw_stored_region_inset(
        numbers: *const f64,
        count: usize,
        counts: *const usize,
        rings: usize,
        distance: f64,
        out: *mut f64,
        out_count: usize,
    ) -> LwRegionOffset;
    pub(crate) fn lw_region_contains(
        numbers: *const f64,
        count: usize,
        counts: *const usize,
        rings: usize,
        east: f64,
        north: f64,
    ) -> LwPlace;
    pub(crate) fn lw_region_nearest(
        numbers: *const f64,
        count: usize,
        counts: *const usize,
        rings: usize,
        east: f64,
        north: f64,
    ) -> LwNearest;
    pub(crate) fn lw_region_area(
        numbers: *const f64,
        count: usize,
        counts: *const usize,
        rings: usize,
    ) -> LwArea;
    pub(crate) fn lw_region_perimeter(
        numbers: *const f64,
        count: usize,
        counts: *const usize,
        rings: usize,
    ) -> LwLength;
    pub(crate) fn lw_region_outer(
        numbers: *const f64,
        count: usize,
        counts: *const usize,
        rings: usize,
        out: *mut f64,
        out_count: usize,
    ) -> LwOutline;
    pub(crate) fn lw_region_hole(
        numbers: *const f64,
        count: usize,
        counts: *const usize,
        rings: usize,
        k: usize,
        out: *mut f64,
        out_count: usize,
    ) -> LwOutline;
}

#[repr(C)]
pub(crate) struct LwLine {
    pub refusal: usize,
    pub count: usize,
}

#[repr(C)]
pub(crate) struct LwFed {
    pub refusal: usize,
    pub first: usize,
    pub taken: usize,
    pub written: usize,
}

extern "C" {
    pub(crate) fn lw_job_line(
        line: *const u8,
        length: usize,
        out: *mut u8,
        out_length: usize,
    ) -> LwLine;
    pub(crate) fn lw_stream(state: *mut u8, state_length: usize) -> LwLine;
    pub(crate) fn lw_feed(
        block: *const u8,
        length: usize,
        state: *mut u8,
        state_length: usize,
        out: *mut u8,
        out_length: usize,
    ) -> LwFed;
    pub(crate) fn lw_finish(
        state: *mut u8,
        state_length: usize,
        out: *mut u8,
        out_length: usize,
    ) -> LwFed;
}
