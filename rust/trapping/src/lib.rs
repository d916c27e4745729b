// SPDX-License-Identifier: Apache-2.0
//! Traps the separated planes of a page, or a window of a sheet, where they lie in memory.
//!
//! Planes follow one another in the order of their names, each row by row from the top; 0 is no ink, `maxval` is full ink. The job
//! describes inks, trap widths and zones (docs/JOBS.md of the repository).

use std::ffi::c_char;
use std::fmt;

pub use trap_sys::TrapInfo as JobInfo;
pub use trap_sys::TrapPlace as Place;
pub use trap_sys::{self as sys, TrapError};
use trap_sys::{TrapJob, TrapReport};

/// How planes lie in the samples: the sides of each in samples, the samples from the start of a row to that of the next, and the
/// tint of full ink.
#[derive(Clone, Copy, Debug, PartialEq, Eq)]
pub struct Layout {
    pub width: u32,
    pub height: u32,
    pub step: u32,
    pub maxval: u32,
}

/// Why a call failed; no sample was changed.
#[derive(Clone, Copy, Debug, PartialEq, Eq)]
pub enum Kind {
    /// An argument is wrong.
    Call,
    /// The job has a fault, or lacks the details of a plane's ink.
    Job,
    /// The planes or the zones are not valid.
    Page,
    /// There is too little memory.
    Memory,
}

/// A call that failed: its kind and its error line, such as "job: OutOfRange TrapWidth at 14"; and of a call over an open job what
/// the line says in numbers, with the constants of `sys`.
#[derive(Clone, Debug, PartialEq, Eq)]
pub struct Refusal {
    pub kind: Kind,
    pub line: String,
    pub error: Option<TrapError>,
}

impl fmt::Display for Refusal {
    fn fmt(&self, to: &mut fmt::Formatter<'_>) -> fmt::Result {
        to.write_str(&self.line)
    }
}

impl std::error::Error for Refusal {}

mod sealed {
    pub trait Sealed {}
    impl Sealed for u8 {}
    impl Sealed for u16 {}
}

/// A type of samples: `u8` or `u16`.
pub trait Sample: sealed::Sealed + Sized {
    #[doc(hidden)]
    fn call(call: &mut Call<'_>, samples: &mut [Self], text: &mut Text) -> u8;
}

/// What a call is given for the job, and for the place of a window.
enum Source<'a> {
    Page(&'a [u8]),
    Window(&'a [u8], &'a Place),
    Open(&'a mut TrapJob, &'a Place),
}

/// The arguments of a call but its samples and its text.
#[doc(hidden)]
pub struct Call<'a> {
    source: Source<'a>,
    names: String,
    layout: Layout,
}

/// The report of a window by an open job: its text (docs/REPORT.md), and its counts.
#[derive(Clone, Debug, PartialEq, Eq)]
pub struct Report {
    pub text: String,
    pub edges: u64,
    /// For each zone its samples, and how many of them changed.
    pub zones: Vec<(u64, u64)>,
    /// For each plane the samples that changed.
    pub changed: Vec<u64>,
}

/// What a call tells: its text, and of a call over an open job its counts and its error in numbers.
#[doc(hidden)]
pub struct Text {
    bytes: Vec<u8>,
    len: usize,
    report: TrapReport,
    error: TrapError,
}

impl Text {
    fn new() -> Text {
        Text {
            bytes: vec![0; trap_sys::LIBTRAP_TEXT_SIZE],
            len: 0,
            report: TrapReport {
                size: std::mem::size_of::<TrapReport>() as u32,
                zones: 0,
                planes: 0,
                edges: 0,
                zone_samples: [0; 251],
                zone_changed: [0; 251],
                plane_changed: [0; 16],
            },
            error: TrapError {
                size: std::mem::size_of::<TrapError>() as u32,
                ..TrapError::default()
            },
        }
    }

    fn into_string(self) -> String {
        let len = self.len.min(self.bytes.len());
        String::from_utf8_lossy(&self.bytes[..len])
            .trim_end_matches('\n')
            .to_owned()
    }
}

/// Calls a function of the library for planes: all of a page; or those of a window, at a place.
macro_rules! trapped {
    ($function:ident, ($($job:expr),*), $call:ident, $samples:ident, $text:ident $(, $place:ident)? $(; $report:ident, $error:ident)?) => {
        // SAFETY: each pointer comes from a slice, with its length, or from a reference; the samples, the open job, the text and
        // its length are borrowed mutably, so nothing else shares memory with them.
        unsafe {
            trap_sys::$function(
                $($job,)*
                $call.names.as_ptr().cast(),
                $call.names.len(),
                $samples.as_mut_ptr(),
                $samples.len(),
                $call.layout.width,
                $call.layout.height,
                $call.layout.step,
                $call.layout.maxval,
                $(*$place as *const Place,)?
                $text.bytes.as_mut_ptr().cast(),
                $text.bytes.len(),
                &mut $text.len,
                $(&mut $text.$report, &mut $text.$error,)?
            )
        }
    };
}

macro_rules! samples {
    ($type:ty, $page:ident, $window:ident, $opened:ident) => {
        impl Sample for $type {
            fn call(call: &mut Call<'_>, samples: &mut [Self], text: &mut Text) -> u8 {
                match &mut call.source {
                    Source::Page(job) => trapped!($page, (job.as_ptr().cast(), job.len()), call, samples, text),
                    Source::Window(job, place) => {
                        trapped!(
                            $window,
                            (job.as_ptr().cast(), job.len()),
                            call,
                            samples,
                            text,
                            place
                        )
                    }
                    Source::Open(handle, place) => {
                        trapped!($opened, (*handle as *mut TrapJob), call, samples, text, place; report, error)
                    }
                }
            }
        }
    };
}

samples!(u8, trap_planes8, trap_window8, trap_open_window8);
samples!(u16, trap_planes16, trap_window16, trap_open_window16);

/// The text of a call that is done; or its refusal.
fn answer(status: u8, text: Text) -> Result<String, Refusal> {
    let error = Some(text.error).filter(|error| error.kind != trap_sys::LIBTRAP_KIND_NONE);
    let line = text.into_string();
    let kind = match status {
        trap_sys::LIBTRAP_DONE => return Ok(line),
        trap_sys::LIBTRAP_CALL => Kind::Call,
        trap_sys::LIBTRAP_JOB => Kind::Job,
        trap_sys::LIBTRAP_PAGE => Kind::Page,
        _ => Kind::Memory,
    };
    Err(Refusal { kind, line, error })
}

/// The counts of a call that is done.
fn counts(report: &TrapReport) -> Report {
    let (zones, planes) = (report.zones as usize, report.planes as usize);
    let samples = report.zone_samples[..zones].iter().copied();
    Report {
        text: String::new(),
        edges: report.edges,
        zones: samples.zip(report.zone_changed).collect(),
        changed: report.plane_changed[..planes].to_vec(),
    }
}

fn trap<S: Sample>(source: Source<'_>, names: &[&str], samples: &mut [S], layout: Layout) -> Result<String, Refusal> {
    report(source, names, samples, layout).map(|report| report.text)
}

fn report<S: Sample>(source: Source<'_>, names: &[&str], samples: &mut [S], layout: Layout) -> Result<Report, Refusal> {
    if names.iter().any(|name| name.contains('\n')) {
        return Err(Refusal {
            kind: Kind::Call,
            line: "call: Names".to_owned(),
            error: None,
        });
    }
    let mut call = Call {
        source,
        names: names.join("\n"),
        layout,
    };
    let mut text = Text::new();
    let status = S::call(&mut call, samples, &mut text);
    let counted = counts(&text.report);
    answer(status, text).map(|text| Report { text, ..counted })
}

/// Traps the planes of a page in place, and returns the report (docs/REPORT.md).
pub fn trap_page<S: Sample>(job: &[u8], names: &[&str], samples: &mut [S], layout: Layout) -> Result<String, Refusal> {
    trap(Source::Page(job), names, samples, layout)
}

/// Traps the core of a window of a sheet in place, and returns the core's part of the report. The other samples are unchanged.
pub fn trap_window<S: Sample>(
    job: &[u8],
    names: &[&str],
    samples: &mut [S],
    layout: Layout,
    place: &Place,
) -> Result<String, Refusal> {
    trap(Source::Window(job, place), names, samples, layout)
}

/// The rows and columns that a window needs around its core, on each side that is not a border of the sheet.
pub fn halo(job: &[u8]) -> Result<u32, Refusal> {
    let (mut halo, mut text) = (0, Text::new());
    // SAFETY: as above.
    let status = unsafe {
        let into = text.bytes.as_mut_ptr().cast::<c_char>();
        trap_sys::trap_halo(
            job.as_ptr().cast(),
            job.len(),
            &mut halo,
            into,
            text.bytes.len(),
            &mut text.len,
        )
    };
    answer(status, text).map(|_| halo)
}

/// A job that the library has read, for any number of windows. It is closed when it is dropped. One thread at a time uses it.
#[derive(Debug)]
pub struct OpenJob {
    handle: TrapJob,
}

// SAFETY: the library keeps no state but behind the handle, so another thread may go on with it.
unsafe impl Send for OpenJob {}

impl OpenJob {
    /// Reads a job.
    pub fn new(job: &[u8]) -> Result<OpenJob, Refusal> {
        let (mut opened, mut text) = (
            OpenJob {
                handle: TrapJob::none(),
            },
            Text::new(),
        );
        // SAFETY: as above.
        let status = unsafe {
            let into = text.bytes.as_mut_ptr().cast::<c_char>();
            trap_sys::trap_open(
                job.as_ptr().cast(),
                job.len(),
                &mut opened.handle,
                into,
                text.bytes.len(),
                &mut text.len,
                &mut text.error,
            )
        };
        answer(status, text).map(|_| opened)
    }

    /// The same job once more, for another thread: it is copied, and not read again.
    pub fn share(&mut self) -> Result<OpenJob, Refusal> {
        let mut other = OpenJob {
            handle: TrapJob::none(),
        };
        let mut text = Text::new();
        // SAFETY: all are borrowed mutably, and `other` is new.
        let status = unsafe { trap_sys::trap_share(&mut self.handle, &mut other.handle, &mut text.error) };
        match status {
            trap_sys::LIBTRAP_DONE => Ok(other),
            // The job is open and `other` is not, so there was too little memory.
            _ => Err(Refusal {
                kind: Kind::Memory,
                line: "out of memory".to_owned(),
                error: Some(text.error),
            }),
        }
    }

    /// What `halo` gives for the job.
    pub fn halo(&mut self) -> u32 {
        let mut halo = 0;
        // SAFETY: both are borrowed mutably. The job is open, so the status is 0.
        unsafe { trap_sys::trap_open_halo(&mut self.handle, &mut halo) };
        halo
    }

    /// The figures of the job.
    pub fn info(&mut self) -> JobInfo {
        let mut info = JobInfo {
            size: std::mem::size_of::<JobInfo>() as u32,
            ..JobInfo::default()
        };
        // SAFETY: both are borrowed mutably. The job is open and the size right, so the status is 0.
        unsafe { trap_sys::trap_job_info(&mut self.handle, &mut info, std::ptr::null_mut()) };
        info
    }

    /// Does what `trap_window` does with the job, and returns the counts of the core too.
    pub fn trap_window<S: Sample>(
        &mut self,
        names: &[&str],
        samples: &mut [S],
        layout: Layout,
        place: &Place,
    ) -> Result<Report, Refusal> {
        report(Source::Open(&mut self.handle, place), names, samples, layout)
    }
}

impl Drop for OpenJob {
    fn drop(&mut self) {
        // SAFETY: the handle is as the library left it.
        unsafe { trap_sys::trap_close(&mut self.handle) }
    }
}

/// The version of the library: 900 for 0.9.0.
pub fn version() -> u32 {
    // SAFETY: the call takes nothing.
    unsafe { trap_sys::trap_version() }
}
