//! The listing of what edid-rs answers for one input.

use edid_rs::*;
use std::io::{self, Write};
use std::panic::{catch_unwind, set_hook, AssertUnwindSafe};

/// Hands out one byte a call. edid-rs refills its buffer only when it is empty, so the bytes handed out are the bytes it has taken.
struct OneByte {
    bytes: Vec<u8>,
    taken: usize,
}

impl io::Read for OneByte {
    fn read(&mut self, buffer: &mut [u8]) -> io::Result<usize> {
        match self.bytes.get(self.taken) {
            None => Ok(0),
            Some(byte) => {
                buffer[0] = *byte;
                self.taken += 1;
                Ok(1)
            }
        }
    }
}

/// From now on nothing is printed where edid-rs stops at a subtraction.
pub fn quiet() {
    set_hook(Box::new(|_| {}));
}

/// The record, or the number of the refusal; the bytes taken; the input.
pub fn reading(bytes: Vec<u8>) -> (std::result::Result<EDID, u8>, usize, Vec<u8>) {
    let mut source = OneByte { bytes, taken: 0 };
    let answer = catch_unwind(AssertUnwindSafe(|| parse(&mut source)));
    let number = match answer {
        Ok(Ok(edid)) => return (Ok(edid), source.taken, source.bytes),
        Ok(Err("Unexpectedly out of data!")) => 1,
        Ok(Err("Invalid header.")) => 2,
        Ok(Err("Expected detailed timing block.")) => 3,
        Ok(Err("Expected 0x0a in monitor descriptor.")) => 4,
        Ok(Err("Expected 0x20 in monitor descriptor.")) => 5,
        Ok(Err(message)) => crate::stop(message),
        Err(panic) => match panic.downcast_ref::<&str>() {
            Some(&"attempt to subtract with overflow") => 6,
            _ => crate::stop("edid-rs stopped, and not at a subtraction"),
        },
    };
    (Err(number), source.taken, source.bytes)
}

/// The crate listing.
pub fn list(out: &mut Vec<u8>, bytes: Vec<u8>) {
    match reading(bytes) {
        (Ok(edid), taken, bytes) => record(out, &edid, taken, &bytes),
        (Err(number), taken, _) => refusal(out, number, taken),
    }
    .expect("a Vec takes every write");
    out.extend_from_slice(b"--\n");
}

/// For each burst what edid-rs says of all bytes so far: the first line of the listing, or `waiting` where it is out of data. Then the
/// crate listing of all bytes.
pub fn list_bursts(out: &mut Vec<u8>, bursts: Vec<Vec<u8>>) {
    let mut joined = Vec::new();
    for burst in bursts {
        joined.extend(burst);
        let (answer, taken, bytes) = reading(joined);
        match answer {
            Ok(_) => acceptance(out, taken),
            Err(1) => writeln!(out, "waiting"),
            Err(number) => refusal(out, number, taken),
        }
        .expect("a Vec takes every write");
        joined = bytes;
    }
    list(out, joined);
}

/// What the three functions that C calls have to answer: the refusal's number, 0 where there is none, the bytes taken, and whether the
/// bytes add up to zero.
pub fn numbers(out: &mut Vec<u8>, bytes: Vec<u8>) {
    let sum = bytes.iter().fold(0u8, |sum, byte| sum.wrapping_add(*byte));
    let (answer, taken, _) = reading(bytes);
    writeln!(out, "{} {} {}", answer.err().unwrap_or(0), taken, (sum == 0) as u8).expect("a Vec takes every write");
}

/// What C has to get of the same: after each burst the number, 257 while nothing is told; at the end the number and the bytes taken; then a
/// line `--`.
pub fn burst_numbers(out: &mut Vec<u8>, bursts: Vec<Vec<u8>>) {
    let mut joined = Vec::new();
    let mut last = (1, 0);
    for burst in bursts {
        joined.extend(burst);
        let (answer, taken, bytes) = reading(joined);
        last = (answer.err().unwrap_or(0), taken);
        let told = if last.0 == 1 { 257 } else { u32::from(last.0) };
        writeln!(out, "{}", told).expect("a Vec takes every write");
        joined = bytes;
    }
    writeln!(out, "{} {}\n--", last.0, last.1).expect("a Vec takes every write");
}

fn acceptance(out: &mut Vec<u8>, taken: usize) -> io::Result<()> {
    writeln!(out, "accept {}", taken)
}

fn refusal(out: &mut Vec<u8>, number: u8, taken: usize) -> io::Result<()> {
    writeln!(out, "refuse {} {}", number, taken)
}

fn record(out: &mut Vec<u8>, e: &EDID, taken: usize, bytes: &[u8]) -> io::Result<()> {
    let ManufacturerID(first, second, third) = e.product.manufacturer_id;
    let date = e.product.manufacture_date;
    acceptance(out, taken)?;
    write!(out, "product {} {} {}", first as u32, second as u32, third as u32)?;
    writeln!(out, " {} {} {} {}", e.product.product_code, e.product.serial_number, date.week, date.year)?;
    writeln!(out, "version {} {}", e.version.version, e.version.revision)?;
    display(out, &e.display)?;
    color(out, &e.color)?;
    timings(out, &e.timings)?;
    let mut starts = text_starts(&e.descriptors, taken, bytes).into_iter();
    for d in &e.descriptors.0 {
        descriptor(out, d, &mut starts)?;
    }
    writeln!(out, "extensions {}", e.extensions)
}

fn display(out: &mut Vec<u8>, d: &DisplayParameters) -> io::Result<()> {
    match d.input {
        VideoInput::Analog { signal_level, setup_expected, supported_sync } => {
            write!(out, "analog {:08x} {:08x}", signal_level.high.to_bits(), signal_level.low.to_bits())?;
            flag(out, setup_expected)?;
            flag(out, supported_sync.serrated_vsync)?;
            flag(out, supported_sync.sync_on_green)?;
            flag(out, supported_sync.composite_sync)?;
            flag(out, supported_sync.seperate_sync)?;
            writeln!(out)?;
        }
        VideoInput::Digital { dfp_compatible } => writeln!(out, "digital {}", dfp_compatible as u8)?,
    }
    match d.max_size {
        None => writeln!(out, "size none")?,
        Some(size) => writeln!(out, "size {:08x} {:08x}", size.width.to_bits(), size.height.to_bits())?,
    }
    match d.gamma {
        None => writeln!(out, "gamma none")?,
        Some(gamma) => writeln!(out, "gamma {:08x}", gamma.to_bits())?,
    }
    write!(out, "dpms")?;
    flag(out, d.dpms.standby_supported)?;
    flag(out, d.dpms.suspend_supported)?;
    flag(out, d.dpms.low_power_supported)?;
    write!(out, " {}", d.dpms.display_type as u8)?;
    flag(out, d.dpms.default_srgb)?;
    flag(out, d.dpms.preferred_timing_mode)?;
    flag(out, d.dpms.default_gtf_supported)?;
    writeln!(out)
}

fn color(out: &mut Vec<u8>, c: &ColorCharacteristics) -> io::Result<()> {
    write!(out, "chroma")?;
    for (x, y) in &[c.red, c.green, c.blue, c.white] {
        write!(out, " {:08x} {:08x}", x.to_bits(), y.to_bits())?;
    }
    writeln!(out)?;
    for w in &c.white_points {
        writeln!(out, "white {} {:08x} {:08x} {:08x}", w.index, w.x.to_bits(), w.y.to_bits(), w.gamma.to_bits())?;
    }
    Ok(())
}

fn timings(out: &mut Vec<u8>, t: &Timings) -> io::Result<()> {
    write!(out, "established")?;
    for flag in &t.established_timings {
        write!(out, " {}", established(*flag))?;
    }
    writeln!(out)?;
    for s in &t.standard_timings {
        writeln!(out, "standard {} {:08x} {}", s.horizontal_resolution, s.aspect_ratio.to_bits(), s.refresh_rate)?;
    }
    for d in &t.detailed_timings {
        detailed(out, d)?;
    }
    Ok(())
}

/// The flag's number, in the order in which `Timings::parse` tests them.
fn established(flag: EstablishedTiming) -> u8 {
    use EstablishedTiming::*;
    match flag {
        H800V600F60 => 0,
        H800V600F56 => 1,
        H640V480F75 => 2,
        H640V480F72 => 3,
        H640V480F67 => 4,
        H640V480F60 => 5,
        H720V400F88 => 6,
        H720V400F70 => 7,
        H1280V1024F75 => 8,
        H1024V768F75 => 9,
        H1024V768F70 => 10,
        H1024V768F60 => 11,
        H1024V768F87 => 12,
        H832V624F75 => 13,
        H800V600F75 => 14,
        H800V600F72 => 15,
        H1152V870F75 => 16,
    }
}

fn detailed(out: &mut Vec<u8>, d: &DetailedTiming) -> io::Result<()> {
    write!(out, "detailed {}", d.pixel_clock)?;
    for (across, down) in &[d.active, d.front_porch, d.sync_length, d.back_porch] {
        write!(out, " {} {}", across, down)?;
    }
    write!(out, " {:08x} {:08x}", d.image_size.width.to_bits(), d.image_size.height.to_bits())?;
    write!(out, " {} {}", d.border.0, d.border.1)?;
    flag(out, d.interlaced)?;
    write!(out, " {}", d.stereo as u8)?;
    match d.sync_type {
        SyncType::Composite { serrated, line: SyncLine::Green } => writeln!(out, " 0 {} 0", serrated as u8),
        SyncType::Composite { serrated, line: SyncLine::RGB } => writeln!(out, " 0 {} 1", serrated as u8),
        SyncType::Composite { serrated, line: SyncLine::Digital(p) } => {
            writeln!(out, " 1 {} {}", serrated as u8, positive(p))
        }
        SyncType::Seperate { horizontal, vertical } => writeln!(out, " 2 {} {}", positive(horizontal), positive(vertical)),
    }
}

fn positive(p: SyncPolarity) -> u8 {
    match p {
        SyncPolarity::Positive => 1,
        SyncPolarity::Negative => 0,
    }
}

fn descriptor(out: &mut Vec<u8>, d: &MonitorDescriptor, starts: &mut impl Iterator<Item = usize>) -> io::Result<()> {
    match d {
        MonitorDescriptor::SerialNumber(text) => writeln!(out, "serial {} {}", start(starts), text.chars().count()),
        MonitorDescriptor::OtherString(text) => writeln!(out, "text {} {}", start(starts), text.chars().count()),
        MonitorDescriptor::MonitorName(text) => writeln!(out, "name {} {}", start(starts), text.chars().count()),
        MonitorDescriptor::Undefined(tag, run) => {
            write!(out, "undefined {} ", tag)?;
            hex(out, run)
        }
        MonitorDescriptor::ManufacturerDefined(tag, run) => {
            write!(out, "maker {} ", tag)?;
            hex(out, run)
        }
        MonitorDescriptor::RangeLimits { vertical_rate, horizontal_rate, pixel_clock, secondary_timing } => {
            write!(out, "range {} {}", vertical_rate.0, vertical_rate.1)?;
            write!(out, " {} {} {}", horizontal_rate.0, horizontal_rate.1, pixel_clock)?;
            match secondary_timing {
                SecondaryTiming::None => writeln!(out, " none"),
                SecondaryTiming::GTF { start_horizontal_freq, c, m, k, j } => {
                    write!(out, " gtf {} {:08x} {:08x}", start_horizontal_freq, c.to_bits(), m.to_bits())?;
                    writeln!(out, " {:08x} {:08x}", k.to_bits(), j.to_bits())
                }
                SecondaryTiming::Other(kind, run) => {
                    write!(out, " other {} ", kind)?;
                    hex(out, run)
                }
            }
        }
    }
}

fn start(starts: &mut impl Iterator<Item = usize>) -> usize {
    starts.next().expect("a start for each text")
}

/// Where each text starts. edid-rs keeps a text's characters and not their place, so the three later slots are walked here once more,
/// by their sizes alone. Nothing rests on the walk being right: it stops the driver unless it ends at the last byte that edid-rs took
/// but one, finds as many texts as edid-rs, and each text's characters stand at the place found.
fn text_starts(descriptors: &MonitorDescriptors, taken: usize, bytes: &[u8]) -> Vec<usize> {
    let mut slot = 72;
    let mut starts = Vec::new();
    for _ in 0..3 {
        let b = &bytes[slot..];
        let timing = (b[0] != 0 || b[1] != 0) && b[2] != 0;
        if !timing && (b[3] == 0xfc || b[3] >= 0xfe) {
            starts.push(slot + 5);
        }
        slot += match b[3] {
            _ if timing => 18,
            0x10 => 5,
            0xfb if b[5] != 0 && b[10] == 0 => 23,
            _ => 18,
        };
    }
    let texts: Vec<&String> = descriptors.0.iter().filter_map(text_of).collect();
    let there = |(text, start): (&&String, &usize)| text.chars().zip(&bytes[*start..]).all(|(c, b)| c == *b as char);
    if slot + 1 != taken || texts.len() != starts.len() || !texts.iter().zip(&starts).all(there) {
        crate::stop("the place of a text was not found");
    }
    starts
}

fn text_of(d: &MonitorDescriptor) -> Option<&String> {
    match d {
        MonitorDescriptor::SerialNumber(text) => Some(text),
        MonitorDescriptor::OtherString(text) => Some(text),
        MonitorDescriptor::MonitorName(text) => Some(text),
        _ => None,
    }
}

fn flag(out: &mut Vec<u8>, set: bool) -> io::Result<()> {
    write!(out, " {}", set as u8)
}

fn hex(out: &mut Vec<u8>, run: &[u8]) -> io::Result<()> {
    for byte in run {
        write!(out, "{:02x}", byte)?;
    }
    writeln!(out)
}
