//! What docs/DIFFERENCES.md says that edid-rs does where the port differs, in a checked build (`cargo test --release`) and in an unchecked
//! one (`cargo test --profile unchecked`): a test for each line of its table that names an input, in the order of the lines.

#[path = "../src/checked.rs"]
mod checked;

use checked::checked;
use edid_rs::*;
use std::io::{self, Cursor};
use std::panic::catch_unwind;

/// Header, zeros up to the first slot, and that slot's first 12 bytes: front porch 1, blanking 0.
fn porch() -> Vec<u8> {
    let mut b = vec![0, 255, 255, 255, 255, 255, 255, 0];
    b.resize(54, 0);
    b.extend(&[1, 0, 1, 0, 0, 0, 0, 0, 1, 0, 0, 0]);
    b
}

/// The shortest block there is, 88 bytes: a first timing, three slots of tag 10, the extension count.
fn shortest(extensions: u8) -> Vec<u8> {
    let mut b = porch();
    b[62] = 0;
    b.resize(72, 0);
    for _ in 0..3 {
        b.extend(&[0, 0, 0, 0x10, 0]);
    }
    b.push(extensions);
    b
}

/// The shortest block with these bytes from a place on.
fn with(at: usize, bytes: &[u8]) -> Vec<u8> {
    let mut b = shortest(0);
    b[at..at + bytes.len()].copy_from_slice(bytes);
    b
}

/// The shortest block with another second slot, of 18 bytes: 101 in all.
fn with_slot(tag: u8, data: [u8; 13]) -> Vec<u8> {
    let mut b = shortest(0);
    b.splice(72..77, [&[0, 0, 0, tag, 0][..], &data].concat());
    assert_eq!(b.len(), 101);
    b
}

fn read(block: Vec<u8>) -> EDID {
    parse(&mut Cursor::new(block)).unwrap()
}

#[test]
fn porch_below_zero() {
    let cut = catch_unwind(|| parse(&mut Cursor::new(porch())).map(|_| ()));
    let back = |at: usize, byte: u8| catch_unwind(|| read(with(at, &[byte])).timings.detailed_timings[0].back_porch);
    let (across, down) = (back(62, 0x01), back(64, 0x10));
    if checked() {
        for stopped in [cut.err(), across.err(), down.err()] {
            assert_eq!(stopped.unwrap().downcast_ref(), Some(&"attempt to subtract with overflow"));
        }
    } else {
        assert_eq!(cut.unwrap(), Err("Unexpectedly out of data!"));
        assert_eq!((across.unwrap(), down.unwrap()), ((65535, 0), (0, 65535)));
    }
}

struct Broken;

impl io::Read for Broken {
    fn read(&mut self, _: &mut [u8]) -> io::Result<usize> {
        Err(io::ErrorKind::Other.into())
    }
}

#[test]
fn read_error() {
    assert_eq!(parse(&mut Broken).map(|_| ()), Err("Error reading data!"));
}

#[test]
fn reader_goes_on() {
    let mut source = Cursor::new([shortest(1), shortest(2)].concat());
    let mut reader = Reader::new(&mut source);
    assert_eq!(EDID::parse(&mut reader).unwrap().extensions, 1);
    assert_eq!(EDID::parse(&mut reader).unwrap().extensions, 2);
}

#[test]
fn refusal_is_a_message() {
    assert_eq!(parse(&mut Cursor::new(vec![])).map(|_| ()), Err("Unexpectedly out of data!"));
}

#[test]
fn message_of_the_gtf_byte() {
    let mut b = with_slot(0xfd, [0, 0, 0, 0, 0, 2, 0x0a, 0, 0, 0, 0, 0, 0]);
    assert_eq!(parse(&mut Cursor::new(b[..84].to_vec())).map(|_| ()), Err("Expected 0x0a in monitor descriptor."));
    b[83] = 0;
    assert!(parse(&mut Cursor::new(b)).is_ok());
}

#[test]
fn text_is_recoded() {
    let mut text = [0x20; 13];
    text[..2].copy_from_slice(&[0x80, 0x0a]);
    match &read(with_slot(0xfc, text)).descriptors.0[..] {
        [MonitorDescriptor::MonitorName(name)] => assert_eq!((name.as_str(), name.len()), ("\u{80}", 2)),
        other => panic!("{:?}", other),
    }
}

#[test]
fn raw_runs_are_arrays() {
    let run = [0, 1, 2, 3, 4, 5, 6, 7, 8, 9, 10, 11, 12];
    for (tag, name) in [(0x0f, "ManufacturerDefined(15, "), (0x11, "Undefined(17, ")] {
        assert_eq!(format!("{:?}", read(with_slot(tag, run)).descriptors.0), format!("[{}{:?})]", name, run));
    }
    match &read(with_slot(0xfd, run)).descriptors.0[..] {
        [MonitorDescriptor::RangeLimits { secondary_timing: SecondaryTiming::Other(5, data), .. }] => assert_eq!(data[..], run[6..]),
        other => panic!("{:?}", other),
    }
}

#[test]
fn letters_are_chars() {
    let ManufacturerID(first, second, third) = read(shortest(0)).product.manufacturer_id;
    assert_eq!([first, second, third], ['\0'; 3]);
}

#[test]
fn lists_are_vectors() {
    let EDID { color, timings, descriptors, .. } = read(shortest(0));
    let (points, flags, pairs): (Vec<WhitePoint>, Vec<EstablishedTiming>, Vec<StandardTiming>) =
        (color.white_points, timings.established_timings, timings.standard_timings);
    let (detailed, descriptors): (Vec<DetailedTiming>, Vec<MonitorDescriptor>) = (timings.detailed_timings, descriptors.0);
    assert_eq!((points.len(), flags.len(), pairs.len(), detailed.len(), descriptors.len()), (0, 0, 8, 1, 0));
}

#[test]
fn established_timing_is_a_name() {
    match read(with(35, &[0x01])).timings.established_timings[..] {
        [flag @ EstablishedTiming::H800V600F60] => assert_eq!(flag as u8, 7),
        ref other => panic!("{:?}", other),
    }
}

#[test]
fn axes_are_pairs() {
    let timing = read(with(59, &[2])).timings.detailed_timings.remove(0);
    assert_eq!(
        [timing.active, timing.front_porch, timing.sync_length, timing.back_porch, timing.border],
        [(1, 2), (0, 0), (0, 0), (0, 0), (0, 0)]
    );
}

#[test]
fn coordinates_are_pairs() {
    let color = read(with(27, &[0x80])).color;
    assert_eq!([color.red, color.green, color.blue, color.white], [(0.5, 0.0), (0.0, 0.0), (0.0, 0.0), (0.0, 0.0)]);
}

#[test]
fn limits_are_pairs() {
    match &read(with_slot(0xfd, [1, 2, 3, 4, 5, 0, 0x0a, 0x20, 0x20, 0x20, 0x20, 0x20, 0x20])).descriptors.0[..] {
        [MonitorDescriptor::RangeLimits {
            vertical_rate: (1, 2),
            horizontal_rate: (3000, 4000),
            pixel_clock: 50_000_000,
            secondary_timing: SecondaryTiming::None,
        }] => (),
        other => panic!("{:?}", other),
    }
}

#[test]
fn what_may_be_missing_is_an_option() {
    let display = read(with(23, &[0xff])).display;
    assert!(Option::<ImageSize>::is_none(&display.max_size) && Option::<f32>::is_none(&display.gamma));
}

/// Takes each struct with a renamed field apart, whole: the left column of the page's table of names.
#[test]
fn names() {
    let EDID { product, version: _, display, color, timings, descriptors, extensions: _ } = read(shortest(0));
    let ProductInformation { manufacturer_id: _, product_code: _, serial_number: _, manufacture_date: _ } = product;
    let DisplayParameters { input, max_size: _, gamma: _, dpms } = display;
    let DPMSFeatures { standby_supported: _, suspend_supported: _, low_power_supported: _, display_type: _, .. } = dpms;
    let DPMSFeatures { default_srgb: _, preferred_timing_mode: _, default_gtf_supported: _, .. } = dpms;
    if let VideoInput::Analog { signal_level: _, setup_expected: _, supported_sync } = input {
        let SupportedSync { serrated_vsync: _, sync_on_green: _, composite_sync: _, seperate_sync: _ } = supported_sync;
    }
    let ColorCharacteristics { red: _, green: _, blue: _, white: _, white_points: _ } = color;
    let Timings { established_timings: _, standard_timings, detailed_timings } = timings;
    let StandardTiming { horizontal_resolution: _, aspect_ratio: _, refresh_rate: _ } = standard_timings[0];
    let DetailedTiming { pixel_clock: _, active: _, front_porch: _, sync_length: _, back_porch: _, image_size: _, .. } =
        detailed_timings[0];
    let DetailedTiming { border: _, interlaced: _, stereo: _, sync_type, .. } = detailed_timings[0];
    let MonitorDescriptors(none) = descriptors;
    assert!(none.is_empty() && !matches!(sync_type, SyncType::Seperate { horizontal: _, vertical: _ }));
}

#[test]
fn debug_output() {
    let edid = read(shortest(0));
    assert!(format!("{:?}", edid).starts_with("EDID { product: ProductInformation { manufacturer_id: ManufacturerID('"));
    assert_eq!(format!("{:?}", edid.clone()), format!("{:?}", edid));
}
