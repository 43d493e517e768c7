//! Writes a picture as PNG (RFC 2083), packed by deflate's fixed codes
//! (RFC 1951): enough for drawings and dithered pictures, and the same bytes
//! every time.

use std::cmp::Reverse;

/// A PNG of `samples`, row by row: three bytes a pixel are red, green and blue,
/// four have alpha besides.
pub fn encode(width: u32, height: u32, channels: usize, samples: &[u8]) -> Vec<u8> {
    let kind = match channels {
        3 => 2,
        4 => 6,
        _ => panic!("{channels} channels"),
    };
    assert!(width > 0 && height > 0, "{width}x{height} pixels");
    let stride = channels * width as usize;
    assert_eq!(samples.len(), stride * height as usize);
    // Each row opens with its filter: 0, the bytes as they are.
    let rows = samples.chunks_exact(stride).flat_map(|row| [&[0], row]).collect::<Vec<_>>().concat();
    let mut header = Vec::new();
    header.extend(width.to_be_bytes());
    header.extend(height.to_be_bytes());
    // Eight bits a channel, the kind, the one packing, not interlaced.
    header.extend([8, kind, 0, 0, 0]);
    let mut png = b"\x89PNG\r\n\x1a\n".to_vec();
    chunk(&mut png, b"IHDR", &header);
    // In parts, since libpng warns of a chunk that is longer than the pixels.
    zlib(&rows, [channels, stride + 1]).chunks(1 << 20).for_each(|part| chunk(&mut png, b"IDAT", part));
    chunk(&mut png, b"IEND", &[]);
    png
}

fn chunk(png: &mut Vec<u8>, name: &[u8; 4], data: &[u8]) {
    png.extend((data.len() as u32).to_be_bytes());
    let start = png.len();
    png.extend(name);
    png.extend(data);
    let sum = crc(&png[start..]);
    png.extend(sum.to_be_bytes());
}

/// What each byte does to the sum.
const CRC: [u32; 256] = crc_table();

const fn crc_table() -> [u32; 256] {
    let mut table = [0; 256];
    let mut byte = 0;
    while byte < 256 {
        let (mut sum, mut bit) = (byte as u32, 0);
        while bit < 8 {
            sum = if sum & 1 == 1 { sum >> 1 ^ 0xedb8_8320 } else { sum >> 1 };
            bit += 1;
        }
        table[byte] = sum;
        byte += 1;
    }
    table
}

fn crc(bytes: &[u8]) -> u32 {
    !bytes.iter().fold(!0, |sum, &byte| sum >> 8 ^ CRC[usize::from(sum as u8 ^ byte)])
}

fn adler(bytes: &[u8]) -> u32 {
    // So few bytes at a time that no sum reaches 2^32 before it is reduced.
    let (a, b) = bytes.chunks(4096).fold((1, 0), |sums, some| {
        let (a, b) = some.iter().fold(sums, |(a, b), &byte| (a + u32::from(byte), b + a + u32::from(byte)));
        (a % 65_521, b % 65_521)
    });
    b << 16 | a
}

fn zlib(data: &[u8], near: [usize; 2]) -> Vec<u8> {
    let mut packed = vec![0x78, 0x01];
    packed.extend(deflate(data, near));
    packed.extend(adler(data).to_be_bytes());
    packed
}

/// Bits from the lowest of each byte on.
#[derive(Default)]
struct Bits {
    bytes: Vec<u8>,
    /// Bits that are not in `bytes` yet, fewer than 32.
    held: u64,
    count: u32,
}

impl Bits {
    /// The lowest `count` bits (at most 32) of a value that has no others.
    fn push(&mut self, value: u32, count: u32) {
        self.held |= u64::from(value) << self.count;
        self.count += count;
        if self.count >= 32 {
            self.bytes.extend((self.held as u32).to_le_bytes());
            self.held >>= 32;
            self.count -= 32;
        }
    }

    /// All bytes, the last one filled up by zeros.
    fn finish(mut self) -> Vec<u8> {
        let left = self.count.div_ceil(8) as usize;
        self.bytes.extend(&self.held.to_le_bytes()[..left]);
        self.bytes
    }

    /// A code, which goes from its highest bit on.
    fn code(&mut self, code: u32, count: u32) {
        self.push(code.reverse_bits() >> (32 - count), count);
    }

    /// A byte, the end or a length, by the fixed codes.
    fn symbol(&mut self, symbol: u32) {
        match symbol {
            0..=143 => self.code(0x30 + symbol, 8),
            144..=255 => self.code(0x190 + symbol - 144, 9),
            256..=279 => self.code(symbol - 256, 7),
            _ => self.code(0xc0 + symbol - 280, 8),
        }
    }

    /// The same `length` bytes (3 to 257) as stand `distance` before.
    fn copy(&mut self, length: usize, distance: usize) {
        let (length, distance) = (length as u32 - 3, distance as u32 - 1);
        let extra = if length < 8 { 0 } else { length.ilog2() - 2 };
        self.symbol(257 + 4 * extra + (length >> extra));
        self.push(length & ((1 << extra) - 1), extra);
        let extra = if distance < 4 { 0 } else { distance.ilog2() - 1 };
        self.code(2 * extra + (distance >> extra), 5);
        self.push(distance & ((1 << extra) - 1), extra);
    }
}

const LONGEST: usize = 257;
const FARTHEST: usize = 32_768;

/// How many bytes are alike at two places, the second after the first.
fn alike(data: &[u8], first: usize, second: usize) -> usize {
    let longest = LONGEST.min(data.len() - second);
    let (a, b) = (&data[first..first + longest], &data[second..second + longest]);
    let (eights, _) = a.as_chunks::<8>();
    let (others, _) = b.as_chunks::<8>();
    let same = eights.iter().zip(others).take_while(|(a, b)| a == b).count() * 8;
    same + a[same..].iter().zip(&b[same..]).take_while(|(a, b)| a == b).count()
}

/// The longest copy at `at` among some distances, and its distance: of two as
/// long the nearer one, which takes fewer bits.
fn longest(data: &[u8], at: usize, distances: [usize; 3]) -> Option<(usize, usize)> {
    let within = distances.into_iter().filter(|&distance| 0 < distance && distance <= at.min(FARTHEST));
    let copies = within.map(|distance| (alike(data, at - distance, at), distance));
    copies.max_by_key(|&(length, distance)| (length, Reverse(distance))).filter(|&(length, _)| length >= 3)
}

/// Where three bytes last stood, by a hash of them. A place is a guess: another
/// three may have come in its way, or none yet, and then it is 0.
struct Places(Vec<usize>);

impl Places {
    const BITS: u32 = 15;

    fn new() -> Places {
        Places(vec![0; 1 << Places::BITS])
    }

    /// The place of the three bytes at `at`, which is now theirs.
    fn replace(&mut self, data: &[u8], at: usize) -> usize {
        let Some(&[a, b, c]) = data[at..].first_chunk() else {
            return at;
        };
        let hash = u32::from_le_bytes([a, b, c, 0]).wrapping_mul(0x9e37_79b1) >> (32 - Places::BITS);
        std::mem::replace(&mut self.0[hash as usize], at)
    }
}

/// One block. A copy is looked for at two distances that are likely, those of a
/// pixel to the left and of a row above, and where the next three bytes last
/// stood.
fn deflate(data: &[u8], [left, above]: [usize; 2]) -> Vec<u8> {
    let mut bits = Bits::default();
    let mut places = Places::new();
    // The last block, of fixed codes.
    bits.push(1, 1);
    bits.push(1, 2);
    let mut at = 0;
    while at < data.len() {
        let seen = at - places.replace(data, at);
        let step = match longest(data, at, [left, above, seen]) {
            Some((length, distance)) => {
                bits.copy(length, distance);
                length
            }
            None => {
                bits.symbol(data[at].into());
                1
            }
        };
        (at + 1..at + step).for_each(|k| _ = places.replace(data, k));
        at += step;
    }
    bits.symbol(256);
    bits.finish()
}

#[cfg(test)]
mod tests {
    use super::*;

    /// Random numbers (xorshift).
    struct Rng(u64);

    impl Rng {
        fn bytes(&mut self, count: usize, values: u64) -> Vec<u8> {
            let mut byte = || {
                self.0 ^= self.0 << 13;
                self.0 ^= self.0 >> 7;
                self.0 ^= self.0 << 17;
                255 - ((self.0 >> 32) % values) as u8
            };
            (0..count).map(|_| byte()).collect()
        }
    }

    /// Reads what `Bits` wrote.
    struct Reader<'a> {
        bytes: &'a [u8],
        at: usize,
    }

    impl Reader<'_> {
        fn code(&mut self, count: u32) -> u32 {
            (0..count).fold(0, |code, _| {
                self.at += 1;
                code << 1 | u32::from(self.bytes[(self.at - 1) / 8] >> ((self.at - 1) % 8) & 1)
            })
        }

        fn number(&mut self, count: u32) -> u32 {
            (0..count).fold(0, |number, k| number | self.code(1) << k)
        }

        fn symbol(&mut self) -> u32 {
            let seven = self.code(7);
            match seven {
                0..=0x17 => 256 + seven,
                0x18..=0x5f => (seven << 1 | self.code(1)) - 0x30,
                0x60..=0x63 => (seven << 1 | self.code(1)) - 0xc0 + 280,
                _ => (seven << 2 | self.code(2)) - 0x190 + 144,
            }
        }

        /// A length or a distance, less the smallest: codes come in groups of
        /// `group`, and from the third group on each group has one bit more.
        fn spread(&mut self, code: u32, group: u32) -> u32 {
            if code < 2 * group {
                return code;
            }
            let extra = code / group - 1;
            ((group + code % group) << extra) + self.number(extra)
        }
    }

    /// The other way, for one block of fixed codes, and what stands after it.
    fn inflate(bytes: &[u8]) -> (Vec<u8>, &[u8]) {
        let mut reader = Reader { bytes, at: 0 };
        assert_eq!((reader.number(1), reader.number(2)), (1, 1));
        let mut out = Vec::new();
        loop {
            match reader.symbol() {
                byte @ 0..=255 => out.push(byte as u8),
                256 => return (out, &bytes[reader.at.div_ceil(8)..]),
                symbol => {
                    let length = 3 + reader.spread(symbol - 257, 4);
                    let code = reader.code(5);
                    assert!(symbol < 285 && code < 30, "these are other lengths, or none");
                    let distance = 1 + reader.spread(code, 2) as usize;
                    (0..length).for_each(|_| out.push(out[out.len() - distance]));
                }
            }
        }
    }

    #[test]
    fn what_is_packed_unpacks() {
        let mut rng = Rng(1);
        let counts = [(0, 1), (1, 1), (5000, 1), (40_000, 2), (70_000, 3), (5000, 256)];
        let mut all = counts.map(|(count, values)| rng.bytes(count, values)).to_vec();
        // The same again, but one byte too far away.
        all.push(rng.bytes(32_769, 256).repeat(2));
        for (k, data) in all.into_iter().enumerate() {
            for near in [[3, 7], [4, 300], [3, 32_769]] {
                assert!(inflate(&deflate(&data, near)) == (data.clone(), &[]), "data {k}, near {near:?}");
            }
        }
    }

    #[test]
    fn sums_of_known_texts() {
        assert_eq!(crc(b"IEND"), 0xae42_6082);
        assert_eq!(adler(b"Wikipedia"), 0x11e6_0398);
        // By Python's zlib.
        let long = [255; 1_000_000];
        assert_eq!((crc(&long), adler(&long)), (0x13fb_da0d, 0x3843_e1be));
    }

    /// The chunks of a file, each with its name: their lengths and sums fit.
    fn chunks(png: &[u8]) -> Vec<(&[u8], &[u8])> {
        let mut rest = png.strip_prefix(b"\x89PNG\r\n\x1a\n").expect("the signature");
        let mut chunks = Vec::new();
        while let Some((length, after)) = rest.split_first_chunk() {
            let (named, after) = after.split_at(4 + u32::from_be_bytes(*length) as usize);
            let (sum, after) = after.split_first_chunk().expect("a sum");
            assert_eq!(u32::from_be_bytes(*sum), crc(named));
            chunks.push(named.split_at(4));
            rest = after;
        }
        assert!(rest.is_empty());
        chunks
    }

    /// A file's header, and the samples, whose rows all have filter 0.
    fn read(png: &[u8], stride: usize) -> (Vec<u8>, Vec<u8>) {
        let chunks = chunks(png);
        let [(b"IHDR", header), packed @ .., (b"IEND", [])] = &chunks[..] else { panic!("other chunks") };
        assert!(packed.iter().all(|(name, _)| name == b"IDAT"));
        let packed = packed.iter().flat_map(|(_, part)| *part).copied().collect::<Vec<u8>>();
        let (rows, sum) = inflate(packed.strip_prefix(&[0x78, 0x01]).expect("zlib's header"));
        assert_eq!(sum, adler(&rows).to_be_bytes());
        let rows = rows.chunks(1 + stride).map(|row| row.strip_prefix(&[0]).expect("filter 0"));
        (header.to_vec(), rows.collect::<Vec<_>>().concat())
    }

    #[test]
    fn what_is_written_reads_back() {
        let mut rng = Rng(2);
        for (channels, kind) in [(3, 2), (4, 6)] {
            for [width, height] in [[1u32, 1], [1, 90], [90, 1], [37, 29], [11_000, 3], [700, 500]] {
                for values in [1, 3, 256] {
                    let stride = channels * width as usize;
                    let samples = rng.bytes(stride * height as usize, values);
                    let header = [&width.to_be_bytes()[..], &height.to_be_bytes(), &[8, kind, 0, 0, 0]].concat();
                    let right = read(&encode(width, height, channels, &samples), stride) == (header, samples);
                    assert!(right, "{width}x{height} of {channels} channels, {values} values");
                }
            }
        }
    }
}
