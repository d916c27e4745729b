// SPDX-License-Identifier: Apache-2.0
//! The functions of libtrap as `trap.h` declares them. The header says what each argument is and what the caller must ensure; the
//! crate `trapping` has safe calls.
#![no_std]

use core::ffi::{c_char, c_void};

/// What a call returns.
pub type TrapStatus = u8;

pub const LIBTRAP_DONE: TrapStatus = 0;
pub const LIBTRAP_CALL: TrapStatus = 2;
pub const LIBTRAP_JOB: TrapStatus = 3;
pub const LIBTRAP_PAGE: TrapStatus = 4;
pub const LIBTRAP_MEMORY: TrapStatus = 7;

/// A buffer of this size holds every report and every error line.
pub const LIBTRAP_TEXT_SIZE: usize = 16384;

/// What stands in an error that names no plane, zone or parameter, or that has no offset.
pub const LIBTRAP_NO_NUMBER: u32 = u32::MAX;
pub const LIBTRAP_NO_OFFSET: u64 = u64::MAX;

pub const LIBTRAP_KIND_NONE: u32 = 0;
// Made of library/kinds.txt by tools/pages.
pub const LIBTRAP_KIND_NULL: u32 = 201;
pub const LIBTRAP_KIND_SIZE: u32 = 202;
pub const LIBTRAP_KIND_HANDLE: u32 = 203;
pub const LIBTRAP_KIND_NAMES: u32 = 204;
pub const LIBTRAP_KIND_SIDES: u32 = 205;
pub const LIBTRAP_KIND_STEP: u32 = 206;
pub const LIBTRAP_KIND_MAXVAL: u32 = 207;
pub const LIBTRAP_KIND_SAMPLES: u32 = 208;
pub const LIBTRAP_KIND_PLACE: u32 = 209;
pub const LIBTRAP_KIND_JOB_TOO_LONG: u32 = 301;
pub const LIBTRAP_KIND_BAD_TOKEN: u32 = 302;
pub const LIBTRAP_KIND_NUMBER_TOO_LARGE: u32 = 303;
pub const LIBTRAP_KIND_UNCLOSED: u32 = 304;
pub const LIBTRAP_KIND_UNMATCHED: u32 = 305;
pub const LIBTRAP_KIND_ODD_DICTIONARY: u32 = 306;
pub const LIBTRAP_KIND_KEY_NOT_NAME: u32 = 307;
pub const LIBTRAP_KIND_NAME_INSIDE: u32 = 308;
pub const LIBTRAP_KIND_TOO_DEEP: u32 = 309;
pub const LIBTRAP_KIND_WRONG_KIND: u32 = 310;
pub const LIBTRAP_KIND_OUT_OF_RANGE: u32 = 311;
pub const LIBTRAP_KIND_NOT_DICTIONARY: u32 = 312;
pub const LIBTRAP_KIND_MISSING_KEY: u32 = 313;
pub const LIBTRAP_KIND_WRONG_TYPE: u32 = 314;
pub const LIBTRAP_KIND_BAD_DENSITY: u32 = 315;
pub const LIBTRAP_KIND_BAD_KIND: u32 = 316;
pub const LIBTRAP_KIND_BAD_RESOLUTION: u32 = 317;
pub const LIBTRAP_KIND_UNKNOWN_OPERATOR: u32 = 318;
pub const LIBTRAP_KIND_WRONG_OPERANDS: u32 = 319;
pub const LIBTRAP_KIND_NO_CURRENT_POINT: u32 = 320;
pub const LIBTRAP_KIND_COORDINATE_RANGE: u32 = 321;
pub const LIBTRAP_KIND_TOO_MANY_VERTICES: u32 = 322;
pub const LIBTRAP_KIND_TOO_MANY_ZONES: u32 = 323;
pub const LIBTRAP_KIND_NO_PAGE_DEVICE: u32 = 324;
pub const LIBTRAP_KIND_AFTER_SHOWPAGE: u32 = 325;
pub const LIBTRAP_KIND_NO_SHOWPAGE: u32 = 326;
pub const LIBTRAP_KIND_NO_DETAILS: u32 = 327;
pub const LIBTRAP_KIND_SAMPLE_ABOVE_MAXVAL: u32 = 401;
pub const LIBTRAP_KIND_TOO_MANY_SAMPLES: u32 = 404;
pub const LIBTRAP_KIND_REACH_TOO_WIDE: u32 = 405;
pub const LIBTRAP_KIND_FAR: u32 = 406;
pub const LIBTRAP_KIND_OUT_OF_MEMORY: u32 = 701;
pub const LIBTRAP_PARAMETER_TRAP_WIDTH: u32 = 1;
pub const LIBTRAP_PARAMETER_BLACK_WIDTH: u32 = 2;
pub const LIBTRAP_PARAMETER_BLACK_COLOR_LIMIT: u32 = 3;
pub const LIBTRAP_PARAMETER_BLACK_DENSITY_LIMIT: u32 = 4;
pub const LIBTRAP_PARAMETER_STEP_LIMIT: u32 = 5;
pub const LIBTRAP_PARAMETER_SLIDING_TRAP_LIMIT: u32 = 6;
pub const LIBTRAP_PARAMETER_TRAP_COLOR_SCALING: u32 = 7;
pub const LIBTRAP_PARAMETER_ENABLED: u32 = 8;
pub const LIBTRAP_PARAMETER_TRAPPING: u32 = 9;
// End of what is made.

/// What a call over an open job says of its error; `size` is that of the struct.
#[repr(C)]
#[derive(Clone, Copy, Debug, Default, PartialEq, Eq)]
pub struct TrapError {
    pub size: u32,
    pub status: u32,
    pub kind: u32,
    pub plate: u32,
    pub zone: u32,
    pub name: u32,
    pub offset: u64,
    pub rows: u64,
}

/// The counts of a report; `size` is that of the struct.
#[repr(C)]
#[derive(Clone, Copy, Debug, PartialEq, Eq)]
pub struct TrapReport {
    pub size: u32,
    pub zones: u32,
    pub planes: u32,
    pub edges: u64,
    pub zone_samples: [u64; 251],
    pub zone_changed: [u64; 251],
    pub plane_changed: [u64; 16],
}

/// The place of a window on its sheet, and of its core in the window, in samples from the upper left corner.
#[repr(C)]
#[derive(Clone, Copy, Debug, Default, PartialEq, Eq)]
pub struct TrapPlace {
    pub sheet_width: u32,
    pub sheet_height: u32,
    pub left: u32,
    pub top: u32,
    pub core_left: u32,
    pub core_top: u32,
    pub core_width: u32,
    pub core_height: u32,
}

/// The figures of an open job, from `trap_job_info`; `size` is that of the struct.
#[repr(C)]
#[derive(Clone, Copy, Debug, Default, PartialEq, Eq)]
pub struct TrapInfo {
    pub size: u32,
    pub resolution: u32,
    pub halo: u32,
    pub corner_step: u32,
    pub reach: u32,
    pub zones: u32,
    pub inks: u64,
}

/// An open job, or none: one that the library has read. Only the library writes its fields; a copy is not another open job.
#[repr(C)]
#[derive(Debug)]
pub struct TrapJob {
    inner: *mut c_void,
    is_open: u8,
}

impl TrapJob {
    /// A job that is not open.
    pub const fn none() -> TrapJob {
        TrapJob {
            inner: core::ptr::null_mut(),
            is_open: 0,
        }
    }
}

/// Declares functions that trap planes of a type of samples: all of a page; or those of a window, at a place. The job is its bytes, or
/// open.
macro_rules! trapping {
    ($($name:ident($sample:ty, ($($job:ident: $type:ty),*) $(, $place:ident)? $(; $report:ident, $error:ident)?);)*) => {
        extern "C" {
            $(pub fn $name(
                $($job: $type,)*
                names: *const c_char,
                names_size: usize,
                samples: *mut $sample,
                sample_count: usize,
                width: u32,
                height: u32,
                step: u32,
                maxval: u32,
                $($place: *const TrapPlace,)?
                text: *mut c_char,
                text_size: usize,
                text_len: *mut usize,
                $($report: *mut TrapReport, $error: *mut TrapError,)?
            ) -> TrapStatus;)*
        }
    };
}

trapping! {
    trap_planes8(u8, (job: *const c_char, job_size: usize));
    trap_planes16(u16, (job: *const c_char, job_size: usize));
    trap_window8(u8, (job: *const c_char, job_size: usize), place);
    trap_window16(u16, (job: *const c_char, job_size: usize), place);
    trap_open_window8(u8, (handle: *mut TrapJob), place; report, error);
    trap_open_window16(u16, (handle: *mut TrapJob), place; report, error);
}

extern "C" {
    pub fn trap_halo(
        job: *const c_char,
        job_size: usize,
        halo: *mut u32,
        text: *mut c_char,
        text_size: usize,
        text_len: *mut usize,
    ) -> TrapStatus;

    pub fn trap_open(
        job: *const c_char,
        job_size: usize,
        handle: *mut TrapJob,
        text: *mut c_char,
        text_size: usize,
        text_len: *mut usize,
        error: *mut TrapError,
    ) -> TrapStatus;

    pub fn trap_share(handle: *mut TrapJob, other: *mut TrapJob, error: *mut TrapError) -> TrapStatus;

    pub fn trap_close(handle: *mut TrapJob);

    pub fn trap_open_halo(handle: *mut TrapJob, halo: *mut u32) -> TrapStatus;

    pub fn trap_job_info(handle: *mut TrapJob, info: *mut TrapInfo, error: *mut TrapError) -> TrapStatus;

    pub fn trap_version() -> u32;
}
