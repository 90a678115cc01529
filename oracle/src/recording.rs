//! The recording: a reader and a writer of WAV files that share nothing with the Rattle crates, and the sound between
//! them through the ruled Rust's chain, a record of figures of the strip for each 10 ms. A gap takes no sound: it stands for
//! 10 ms that are in neither strip nor recording. What is taken is 16-bit PCM; what is wrong with a file or a strip is an error
//! here, and is not compared.

use crate::chain::{ruled, Figures, LOST};
use crate::strip::{self, Entry};
use std::io::{self, Error, ErrorKind, Read, Write};

/// What a program writes in the place of a size that it does not know, since it writes to a pipe: ffmpeg the largest number,
/// and sox another one, less what is left of it over groups of samples of so many bytes.
fn is_unknown(size: u32, group: u32) -> bool {
    size == u32::MAX || size == 0x7fff_f000 / group * group
}

fn wrong<T>(what: &str) -> io::Result<T> {
    Err(Error::new(ErrorKind::InvalidData, what))
}

fn four(bytes: &[u8], at: usize) -> io::Result<u32> {
    match bytes.get(at..at + 4) {
        Some(b) => Ok(u32::from_le_bytes([b[0], b[1], b[2], b[3]])),
        None => wrong("the file is cut"),
    }
}

/// What a file has: its channels, its samples a second, the size of its samples as it says it, and the samples.
struct Wave<'a> {
    channels: usize,
    rate: u32,
    size: u32,
    sound: &'a [u8],
}

/// Goes from chunk to chunk until the samples.
fn read(file: &[u8]) -> io::Result<Wave<'_>> {
    if file.get(..4) != Some(b"RIFF") || file.get(8..12) != Some(b"WAVE") {
        return wrong("not a WAV file");
    }
    let (mut at, mut format) = (12, None);
    loop {
        let size = four(file, at + 4)?;
        let (name, body) = (&file[at..at + 4], &file[at + 8..]);
        match (name, format) {
            (b"fmt ", _) => {
                let (tag, rate, bits) = (four(body, 0)?, four(body, 4)?, four(body, 12)?);
                let plain = tag & 0xffff == 1 || (tag & 0xffff == 0xfffe && four(body, 24)? & 0xffff == 1);
                if !plain || bits >> 16 != 16 {
                    return wrong("the samples are not 16-bit PCM");
                }
                format = Some(((tag >> 16) as usize, rate));
            }
            (b"data", Some((channels, rate))) => {
                let group = 2 * channels;
                let unknown = is_unknown(size, group as u32);
                let end = if unknown { body.len() } else { body.len().min(size as usize) };
                let sound = &body[..end - end % group];
                return Ok(Wave {
                    channels,
                    rate,
                    size: if unknown { size } else { size - size % group as u32 },
                    sound,
                });
            }
            _ => {}
        }
        at += 8 + size as usize + size as usize % 2;
    }
}

fn head(wave: &Wave) -> Vec<u8> {
    let group = 2 * wave.channels as u32;
    let mut all = Vec::new();
    all.extend(b"RIFF");
    all.extend(&wave.size.saturating_add(36).to_le_bytes());
    all.extend(b"WAVEfmt \x10\0\0\0\x01\0");
    all.extend(&(wave.channels as u16).to_le_bytes());
    all.extend(&wave.rate.to_le_bytes());
    all.extend(&(wave.rate * group).to_le_bytes());
    all.extend(&(group as u16).to_le_bytes());
    all.extend(b"\x10\0data");
    all.extend(&wave.size.to_le_bytes());
    all
}

/// WebRTC's `FloatS16ToS16`: clamped, and the nearest whole number, halves away from zero.
fn sample(x: f32) -> i16 {
    let x = x.clamp(-32768.0, 32767.0);
    (x + 0.5_f32.copysign(x)) as i16
}

/// The next figures of the strip. The gaps before them go to the chain.
fn figures(version: &strip::Version, strip: &mut dyn Read, chain: &mut ruled::Chain) -> io::Result<Option<Figures>> {
    let mut gaps = 0;
    loop {
        match strip::record(version, strip)? {
            Ok(Entry::Frame(figures)) => return Ok(Some(figures)),
            Ok(Entry::Gap) => chain.gap(&LOST[gaps % LOST.len()]),
            Ok(Entry::End) => return Ok(None),
            Err(reply) => return wrong(&format!("a record is refused with {}", reply)),
        }
        gaps += 1;
    }
}

/// Reads a recording and its strip, and writes the levelled recording.
pub fn level(input: &mut dyn Read, strip: &mut dyn Read, output: &mut dyn Write) -> io::Result<()> {
    let mut file = Vec::new();
    input.read_to_end(&mut file)?;
    let wave = read(&file)?;
    let set = match strip::head(strip)? {
        Ok(set) => set,
        Err(reply) => return wrong(&format!("the strip's head is refused with {}", reply)),
    };
    if wave.rate != 100 * set.samples {
        return wrong("the strip is for another rate");
    }
    let mut chain = ruled::Chain::new(&set.settings, set.threshold, set.samples);
    output.write_all(&head(&wave))?;
    let samples = set.samples as usize;
    for bytes in wave.sound.chunks(2 * wave.channels * samples) {
        let figures = match figures(set.version, strip, &mut chain)? {
            Some(figures) => figures,
            None => return wrong("the strip ends before the recording"),
        };
        let mut sound = vec![vec![0.0; samples]; wave.channels];
        for (i, two) in bytes.chunks(2).enumerate() {
            sound[i % wave.channels][i / wave.channels] = i16::from_le_bytes([two[0], two[1]]) as f32;
        }
        chain.step(&figures, &mut sound);
        for i in 0..bytes.len() / 2 {
            output.write_all(&sample(sound[i % wave.channels][i / wave.channels]).to_le_bytes())?;
        }
    }
    output.flush()
}
