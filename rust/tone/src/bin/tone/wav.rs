//! 16-bit mono PCM WAV files.
//!
//! A WAV file is a RIFF file of form WAVE: chunks of a name, a size and that
//! many bytes, a byte of padding after an odd size. The chunk `fmt ` says what
//! the samples are, `data` holds them, and every other chunk is passed over.

use std::fmt;
use std::fs::File;
use std::io::{self, BufReader, Read, Seek, SeekFrom, Write};
use std::path::Path;

use tone::MOST_SAMPLES;

use crate::failure::Failure;

/// The format tag of PCM.
const PCM: u16 = 1;
/// The format tag of a longer format chunk, which names its encoding by a GUID.
const EXTENSIBLE: u16 = 0xfffe;
/// That GUID for PCM, as it lies in a file.
const PCM_GUID: [u8; 16] = [
    1, 0, 0, 0, 0, 0, 0x10, 0, 0x80, 0, 0, 0xaa, 0, 0x38, 0x9b, 0x71,
];
/// Bytes of the extensible format chunk; a plain one has 16 of them.
const FORMAT_BYTES: usize = 40;
/// Bytes before the samples in the files that are written.
const HEADER_BYTES: u32 = 44;
/// What RIFF's size leaves out: its own name and size.
const RIFF_BYTES: u32 = 8;
/// Bits of a sample.
const SAMPLE_BITS: u16 = 16;
/// Bytes of a sample.
const SAMPLE_BYTES: u32 = 2;

/// Why a file is not one that can be read or written.
#[derive(Debug)]
pub enum Fault {
    /// It could not be read.
    Io(io::Error),
    /// It does not begin as a RIFF file of form WAVE.
    NotWave,
    /// The file, or a chunk, ends before its size says.
    Truncated,
    /// A chunk that must be there once is not there, or is there again.
    Chunk(&'static str, &'static str),
    /// The format chunk is too short for what it says.
    ShortFormat,
    /// A format other than PCM.
    Encoding(u16),
    /// Channels other than one.
    Channels(u16),
    /// Bits other than 16.
    Bits(u16),
    /// Bytes of a sample, of all channels, other than two.
    Alignment(u16),
    /// Data that end in half a sample.
    HalfSample,
    /// More samples than a file to be written can say.
    TooLong(u64),
}

impl fmt::Display for Fault {
    fn fmt(&self, f: &mut fmt::Formatter<'_>) -> fmt::Result {
        match self {
            Fault::Io(error) => error.fmt(f),
            Fault::NotWave => write!(f, "not a WAV file (no RIFF header of form WAVE)"),
            Fault::Truncated => write!(f, "the WAV file ends before its sizes say"),
            Fault::Chunk(name, how) => write!(f, "the WAV file has {how} chunk {name:?}"),
            Fault::ShortFormat => write!(f, "the WAV file's format chunk is too short"),
            Fault::Encoding(tag) => write!(f, "the samples are not PCM (WAV format {tag})"),
            Fault::Channels(count) => write!(f, "{count} channels, where mono is asked for"),
            Fault::Bits(count) => write!(f, "{count} bits a sample, where 16 are asked for"),
            Fault::Alignment(count) => {
                write!(f, "{count} bytes a sample, where 16-bit mono has 2")
            }
            Fault::HalfSample => write!(f, "the WAV file's data end in half a sample"),
            Fault::TooLong(count) => {
                write!(f, "{count} samples, more than a WAV file can hold")
            }
        }
    }
}

impl From<io::Error> for Fault {
    /// What ends too early was cut off.
    fn from(error: io::Error) -> Fault {
        match error.kind() {
            io::ErrorKind::UnexpectedEof => Fault::Truncated,
            _ => Fault::Io(error),
        }
    }
}

// ---- reading

/// Reads the samples of a file.
pub fn read_file(path: &Path) -> Result<Vec<i16>, Failure> {
    File::open(path)
        .map_err(Fault::Io)
        .and_then(|file| read(&mut BufReader::new(file)))
        .map_err(|fault| Failure::unusable(path.display(), fault))
}

/// Where a chunk's bytes lie.
#[derive(Clone, Copy)]
struct Chunk {
    start: u64,
    size: u64,
}

/// Reads the samples. Of a recording that is too long one sample too many is
/// read, which is enough for the builder to refuse it.
fn read(source: &mut (impl Read + Seek)) -> Result<Vec<i16>, Fault> {
    let (format, data) = find_chunks(source)?;
    source.seek(SeekFrom::Start(format.start))?;
    let mut bytes = Vec::new();
    source
        .take(format.size.min(FORMAT_BYTES as u64))
        .read_to_end(&mut bytes)?;
    test_format(&bytes)?;
    if data.size % u64::from(SAMPLE_BYTES) != 0 {
        return Err(Fault::HalfSample);
    }
    let count = (data.size / u64::from(SAMPLE_BYTES)).min(MOST_SAMPLES as u64 + 1);
    let mut bytes = vec![0; count as usize * SAMPLE_BYTES as usize];
    source.seek(SeekFrom::Start(data.start))?;
    source.read_exact(&mut bytes)?;
    let (samples, _) = bytes.as_chunks();
    Ok(samples
        .iter()
        .map(|bytes| i16::from_le_bytes(*bytes))
        .collect())
}

/// The chunks `fmt ` and `data`, each of which must be there once. Bytes after
/// RIFF's own size are passed over.
fn find_chunks(source: &mut (impl Read + Seek)) -> Result<(Chunk, Chunk), Fault> {
    let end = riff_end(source)?;
    let (mut format, mut data) = (None, None);
    let mut at = 12;
    while at + 8 <= end {
        source.seek(SeekFrom::Start(at))?;
        let mut name = [0; 4];
        source.read_exact(&mut name)?;
        let chunk = Chunk {
            start: at + 8,
            size: u64::from(read_u32(source)?),
        };
        if chunk.start + chunk.size > end {
            return Err(Fault::Truncated);
        }
        let again = match &name {
            b"fmt " => format.replace(chunk).map(|_| "fmt "),
            b"data" => data.replace(chunk).map(|_| "data"),
            _ => None,
        };
        if let Some(name) = again {
            return Err(Fault::Chunk(name, "more than one"));
        }
        at = chunk.start + chunk.size + chunk.size % 2;
    }
    let format = format.ok_or(Fault::Chunk("fmt ", "no"))?;
    let data = data.ok_or(Fault::Chunk("data", "no"))?;
    Ok((format, data))
}

/// Reads the RIFF header. Hands out where the file ends by its size.
fn riff_end(source: &mut (impl Read + Seek)) -> Result<u64, Fault> {
    let length = source.seek(SeekFrom::End(0))?;
    source.seek(SeekFrom::Start(0))?;
    if length < 12 {
        return Err(Fault::NotWave);
    }
    let mut name = [0; 4];
    source.read_exact(&mut name)?;
    let size = read_u32(source)?;
    let mut form = [0; 4];
    source.read_exact(&mut form)?;
    if (&name, &form) != (b"RIFF", b"WAVE") {
        return Err(Fault::NotWave);
    }
    let end = u64::from(size) + u64::from(RIFF_BYTES);
    if end > length {
        return Err(Fault::Truncated);
    }
    Ok(end)
}

fn read_u32(source: &mut impl Read) -> Result<u32, Fault> {
    let mut bytes = [0; 4];
    source.read_exact(&mut bytes)?;
    Ok(u32::from_le_bytes(bytes))
}

/// Tests the bytes of a format chunk for 16-bit mono PCM.
fn test_format(bytes: &[u8]) -> Result<(), Fault> {
    if bytes.len() < 16 {
        return Err(Fault::ShortFormat);
    }
    let number = |at: usize| u16::from_le_bytes([bytes[at], bytes[at + 1]]);
    let (tag, channels, alignment, bits) = (number(0), number(2), number(12), number(14));
    match tag {
        PCM => {}
        EXTENSIBLE if bytes.len() < FORMAT_BYTES => return Err(Fault::ShortFormat),
        EXTENSIBLE if bytes[24..40] != PCM_GUID => return Err(Fault::Encoding(number(24))),
        // The bits in use, of those that a sample takes up.
        EXTENSIBLE if number(18) != SAMPLE_BITS => return Err(Fault::Bits(number(18))),
        EXTENSIBLE => {}
        tag => return Err(Fault::Encoding(tag)),
    }
    if channels != 1 {
        return Err(Fault::Channels(channels));
    }
    if bits != SAMPLE_BITS {
        return Err(Fault::Bits(bits));
    }
    if u32::from(alignment) != SAMPLE_BYTES {
        return Err(Fault::Alignment(alignment));
    }
    Ok(())
}

// ---- writing

/// What stands before the samples.
#[derive(Debug)]
pub struct Header {
    sample_rate: u32,
    data_bytes: u32,
}

impl Header {
    /// For so many samples, at a rate that can be doubled in 32 bits.
    pub fn new(sample_rate: u32, samples: u64) -> Result<Header, Fault> {
        let most = u64::from((u32::MAX - HEADER_BYTES) / SAMPLE_BYTES);
        if samples > most {
            return Err(Fault::TooLong(samples));
        }
        Ok(Header {
            sample_rate,
            data_bytes: samples as u32 * SAMPLE_BYTES,
        })
    }

    /// The count of samples.
    pub fn samples(&self) -> u32 {
        self.data_bytes / SAMPLE_BYTES
    }

    /// Writes the RIFF header, the format chunk and the head of the data chunk.
    pub fn write(&self, file: &mut impl Write) -> io::Result<()> {
        let riff_size = HEADER_BYTES - RIFF_BYTES + self.data_bytes;
        file.write_all(b"RIFF")?;
        file.write_all(&riff_size.to_le_bytes())?;
        file.write_all(b"WAVEfmt ")?;
        file.write_all(&16u32.to_le_bytes())?;
        file.write_all(&PCM.to_le_bytes())?;
        file.write_all(&1u16.to_le_bytes())?; // channels
        file.write_all(&self.sample_rate.to_le_bytes())?;
        file.write_all(&(self.sample_rate * SAMPLE_BYTES).to_le_bytes())?; // bytes a second
        file.write_all(&(SAMPLE_BYTES as u16).to_le_bytes())?; // bytes a sample, of all channels
        file.write_all(&SAMPLE_BITS.to_le_bytes())?;
        file.write_all(b"data")?;
        file.write_all(&self.data_bytes.to_le_bytes())
    }
}

/// Writes samples, the lower byte first.
pub fn write_samples(file: &mut impl Write, samples: &[i16]) -> io::Result<()> {
    samples
        .iter()
        .try_for_each(|sample| file.write_all(&sample.to_le_bytes()))
}

#[cfg(test)]
mod tests {
    use super::*;
    use std::io::Cursor;

    /// A format chunk's first 16 bytes.
    fn plain(tag: u16, channels: u16, alignment: u16, bits: u16) -> Vec<u8> {
        let mut bytes = Vec::new();
        for part in [tag, channels, 48000, 0, 0, 0, alignment, bits] {
            bytes.extend(part.to_le_bytes());
        }
        bytes
    }

    fn extensible(valid_bits: u16, guid: &[u8; 16]) -> Vec<u8> {
        let mut bytes = plain(EXTENSIBLE, 1, 2, 16);
        bytes.extend(22u16.to_le_bytes());
        bytes.extend(valid_bits.to_le_bytes());
        bytes.extend([0; 4]); // channel mask
        bytes.extend(guid);
        bytes
    }

    /// A WAV file of these chunks, odd ones padded.
    fn file(chunks: &[(&[u8; 4], &[u8])]) -> Vec<u8> {
        let mut body = b"WAVE".to_vec();
        for (name, bytes) in chunks {
            body.extend(*name);
            body.extend((bytes.len() as u32).to_le_bytes());
            body.extend(*bytes);
            body.extend(vec![0; bytes.len() % 2]);
        }
        let mut file = b"RIFF".to_vec();
        file.extend((body.len() as u32).to_le_bytes());
        file.extend(body);
        file
    }

    fn fault(bytes: Vec<u8>) -> String {
        read(&mut Cursor::new(bytes)).unwrap_err().to_string()
    }

    #[test]
    fn plain_and_extensible_files() {
        let data: &[u8] = &[1, 0, 0xff, 0xff, 0, 0x80];
        for format in [plain(PCM, 1, 2, 16), extensible(16, &PCM_GUID)] {
            let bytes = file(&[(b"fmt ", &format), (b"data", data)]);
            assert_eq!(read(&mut Cursor::new(bytes)).unwrap(), [1, -1, -32768]);
        }
    }

    #[test]
    fn other_chunks_are_passed_over() {
        let format = plain(PCM, 1, 2, 16);
        let chunks: [(&[u8; 4], &[u8]); 5] = [
            (b"LIST", b"odd"),
            (b"fmt ", &format),
            (b"fact", b""),
            (b"data", &[7, 0]),
            (b"id3 ", b"fmt data!"),
        ];
        let mut bytes = file(&chunks);
        assert_eq!(read(&mut Cursor::new(bytes.clone())).unwrap(), [7]);
        bytes.extend(b"bytes after the RIFF file");
        assert_eq!(read(&mut Cursor::new(bytes)).unwrap(), [7]);
    }

    #[test]
    fn data_may_come_before_the_format_and_be_empty() {
        let format = plain(PCM, 1, 2, 16);
        let bytes = file(&[(b"data", &[9, 0]), (b"fmt ", &format)]);
        assert_eq!(read(&mut Cursor::new(bytes)).unwrap(), [9]);
        let bytes = file(&[(b"fmt ", &format), (b"data", &[])]);
        assert_eq!(read(&mut Cursor::new(bytes)).unwrap(), []);
    }

    #[test]
    fn no_wave_file() {
        for bytes in [
            &b""[..],
            b"RIFF",
            b"RIFF\x04\0\0\0AVI ",
            b"RIFX\x04\0\0\0WAVE",
            b"a text, of no form",
        ] {
            assert!(fault(bytes.to_vec()).contains("not a WAV file"));
        }
    }

    #[test]
    fn every_truncation_is_refused() {
        let format = plain(PCM, 1, 2, 16);
        let whole = file(&[
            (b"LIST", b"odd"),
            (b"fmt ", &format),
            (b"data", &[1, 0, 2, 0]),
            (b"id3 ", b"a title"),
        ]);
        for length in 0..whole.len() {
            let text = fault(whole[..length].to_vec());
            let expected = if length < 12 {
                "not a WAV file"
            } else {
                "ends before its sizes"
            };
            assert!(text.contains(expected), "{length}: {text}");
        }
    }

    #[test]
    fn a_chunk_larger_than_the_file() {
        let mut bytes = file(&[(b"fmt ", &plain(PCM, 1, 2, 16)), (b"data", &[1, 0])]);
        let size_at = bytes.len() - 6;
        bytes[size_at..size_at + 4].copy_from_slice(&u32::MAX.to_le_bytes());
        assert!(fault(bytes).contains("ends before its sizes"));
    }

    #[test]
    fn chunks_missing_or_doubled() {
        let format = plain(PCM, 1, 2, 16);
        assert!(fault(file(&[(b"fmt ", &format)])).contains("no chunk \"data\""));
        assert!(fault(file(&[(b"data", &[1, 0])])).contains("no chunk \"fmt \""));
        let twice = file(&[(b"fmt ", &format), (b"data", &[1, 0]), (b"data", &[2, 0])]);
        assert!(fault(twice).contains("more than one chunk \"data\""));
    }

    #[test]
    fn other_formats() {
        let with = |format: Vec<u8>| fault(file(&[(b"fmt ", &format), (b"data", &[1, 0])]));
        assert!(with(plain(3, 1, 4, 32)).contains("WAV format 3"));
        assert!(with(plain(PCM, 2, 4, 16)).contains("2 channels"));
        assert!(with(plain(PCM, 0, 2, 16)).contains("0 channels"));
        assert!(with(plain(PCM, 1, 1, 8)).contains("8 bits"));
        assert!(with(plain(PCM, 1, 3, 24)).contains("24 bits"));
        assert!(with(plain(PCM, 1, 4, 16)).contains("4 bytes"));
        assert!(with(plain(PCM, 1, 2, 16)[..14].to_vec()).contains("too short"));
        assert!(with(plain(EXTENSIBLE, 1, 2, 16)).contains("too short"));
        assert!(with(extensible(12, &PCM_GUID)).contains("12 bits"));
        let mut float = PCM_GUID;
        float[0] = 3;
        assert!(with(extensible(16, &float)).contains("WAV format 3"));
    }

    #[test]
    fn half_a_sample() {
        let bytes = file(&[(b"fmt ", &plain(PCM, 1, 2, 16)), (b"data", &[1, 0, 2])]);
        assert!(fault(bytes).contains("half a sample"));
    }

    #[test]
    fn a_written_file_is_read_back() {
        let samples = [0, 1, -1, i16::MAX, i16::MIN];
        let mut bytes = Vec::new();
        let header = Header::new(44100, samples.len() as u64).unwrap();
        header.write(&mut bytes).unwrap();
        write_samples(&mut bytes, &samples).unwrap();
        assert_eq!(bytes.len(), 44 + 10);
        assert_eq!(read(&mut Cursor::new(bytes)).unwrap(), samples);
    }

    #[test]
    fn the_longest_file() {
        let most = (u64::from(u32::MAX) - 44) / 2;
        assert_eq!(u64::from(Header::new(48000, most).unwrap().samples()), most);
        assert!(Header::new(48000, most + 1).is_err());
    }
}
