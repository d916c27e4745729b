// SPDX-License-Identifier: Apache-2.0
//! The poster of examples/ says what has to come out. TRAP_POSTER names a folder with its job, report and unpacked plates.

use std::fs;
use std::path::PathBuf;
use trapping::{halo, sys, trap_page, trap_window, version, Kind, Layout, OpenJob, Place};

const INKS: [&str; 4] = ["Cyan", "Magenta", "Yellow", "Black"];
const LAYOUT: Layout = Layout {
    width: 400,
    height: 300,
    step: 400,
    maxval: 255,
};

fn file(name: &str) -> Vec<u8> {
    let folder = PathBuf::from(std::env::var_os("TRAP_POSTER").expect("TRAP_POSTER"));
    fs::read(folder.join(name)).unwrap_or_else(|error| panic!("{name}: {error}"))
}

/// The poster's plates as planes. In a file 0 is full ink.
fn planes(folder: &str) -> Vec<u8> {
    let plane = (LAYOUT.width * LAYOUT.height) as usize;
    INKS.iter()
        .flat_map(|ink| {
            let bytes = file(&format!("{folder}/{ink}.pgm"));
            bytes[bytes.len() - plane..]
                .iter()
                .map(|sample| 255 - sample)
                .collect::<Vec<u8>>()
        })
        .collect()
}

#[test]
fn a_page_of_bytes() {
    let mut samples = planes("plates");
    let report = trap_page(&file("poster.job"), &INKS, &mut samples, LAYOUT).unwrap();
    assert!(samples == planes("expected"));
    assert_eq!(report.as_bytes(), file("report").strip_suffix(b"\n").unwrap());
}

#[test]
fn a_page_of_words() {
    let mut samples: Vec<u16> = planes("plates").into_iter().map(u16::from).collect();
    trap_page(&file("poster.job"), &INKS, &mut samples, LAYOUT).unwrap();
    assert!(samples == planes("expected").into_iter().map(u16::from).collect::<Vec<u16>>());
}

#[test]
fn bands_are_the_page() {
    let job = file("poster.job");
    let mut first = OpenJob::new(&job).unwrap();
    let mut opened = first.share().unwrap();
    drop(first);
    let (rendered, more) = (planes("plates"), halo(&job).unwrap());
    assert_eq!(opened.halo(), more);
    assert_eq!((opened.info().halo, opened.info().inks), (more, INKS.len() as u64));
    let mut trapped = vec![0; rendered.len()];
    for top in (0..LAYOUT.height).step_by(100) {
        let (first, end) = (top.saturating_sub(more), (top + 100 + more).min(LAYOUT.height));
        let row = |c: usize, y: u32| (c * LAYOUT.height as usize + y as usize) * LAYOUT.width as usize;
        let mut window: Vec<u8> = (0..INKS.len())
            .flat_map(|c| rendered[row(c, first)..row(c, end)].to_vec())
            .collect();
        let place = Place {
            sheet_width: LAYOUT.width,
            sheet_height: LAYOUT.height,
            left: 0,
            top: first,
            core_left: 0,
            core_top: top - first,
            core_width: LAYOUT.width,
            core_height: 100,
        };
        let layout = Layout {
            height: end - first,
            ..LAYOUT
        };
        let mut other = window.clone();
        let report = trap_window(&job, &INKS, &mut window, layout, &place).unwrap();
        let told = opened.trap_window(&INKS, &mut other, layout, &place).unwrap();
        assert_eq!(told.text, report);
        assert!(report.contains(&format!(
            "\nedges {}\nplate Cyan changed {}\n",
            told.edges, told.changed[0]
        )));
        assert_eq!(
            told.zones.iter().map(|zone| zone.0).sum::<u64>(),
            100 * u64::from(LAYOUT.width)
        );
        assert!(other == window);
        for c in 0..INKS.len() {
            let from = (c * (end - first) as usize + (top - first) as usize) * LAYOUT.width as usize;
            let core = &window[from..from + 100 * LAYOUT.width as usize];
            trapped[row(c, top)..row(c, top + 100)].copy_from_slice(core);
        }
    }
    assert!(trapped == planes("expected"));
}

#[test]
fn refusals_leave_the_samples() {
    let mut samples = planes("plates");
    let refusal = trap_page(b"<<", &INKS, &mut samples, LAYOUT).unwrap_err();
    assert_eq!(refusal.kind, Kind::Job);
    assert_eq!(refusal.error, None);
    let opened = OpenJob::new(b"<<").unwrap_err();
    assert_eq!((opened.kind, &opened.line), (refusal.kind, &refusal.line));
    let error = opened.error.unwrap();
    assert_eq!((error.status, error.kind), (3, sys::LIBTRAP_KIND_UNCLOSED));
    assert_eq!((error.offset, error.plate), (0, sys::LIBTRAP_NO_NUMBER));
    let refusal = trap_page(
        &file("poster.job"),
        &["Cyan\nMagenta", "Yellow", "Black"],
        &mut samples,
        LAYOUT,
    )
    .unwrap_err();
    assert_eq!((refusal.kind, refusal.line.as_str()), (Kind::Call, "call: Names"));
    let refusal = trap_page(&file("poster.job"), &INKS[..3], &mut samples, LAYOUT).unwrap_err();
    assert_eq!(
        (refusal.kind, refusal.to_string().as_str()),
        (Kind::Call, "call: Samples")
    );
    assert!(samples == planes("plates"));
}

#[test]
fn the_version_is_that_of_the_crate() {
    let mut numbers = env!("CARGO_PKG_VERSION")
        .split('.')
        .map(|part| part.parse::<u32>().unwrap());
    let wanted = numbers.next().unwrap() * 10_000 + numbers.next().unwrap() * 100 + numbers.next().unwrap();
    assert_eq!(version(), wanted);
}
