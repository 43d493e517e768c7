//! Runs of the command `badge`: its words, the files that it finds, and the
//! files that it must write or the words with which it must refuse. The original
//! draws them by itself, with no table lent.

use std::collections::BTreeMap;

use crate::case::{Call, Case, ToMode};
use crate::generate::{self, Fixed, Style};
use crate::mode::Mode;
use crate::model::{self, BY_ALPHA, DRAWN, PAIRINGS, RETIRED, is_retired};
use crate::original::{self, How, Rgba, kind_names, modes_of, own_opaque, own_tables};
use crate::reference::{expected, settings_of};
use crate::rng::Rng;
use crate::text::hex;

const STYLE: Style = Style { finite: true, side: 48, large: false, twins: 0 };

/// What the command says of a kind that is retired.
pub const SAID_OF_RETIRED: &str = "refused with 15:";

/// How many jobs have each with each: passes, modes, the nine kinds that are drawn
/// and one turn of a retired one, and roundings.
pub const EACH_WITH_EACH: u64 = 2 * 16 * 10 * 2;

/// Files by name.
pub type Files = BTreeMap<String, Vec<u8>>;

pub struct Job {
    pub words: Vec<String>,
    pub before: Files,
    pub written: Result<Files, String>,
}

/// A PAM file; without alpha a pixel's fourth byte is left out.
fn pam([width, height]: [u32; 2], pixels: &[u8], alpha: bool) -> Vec<u8> {
    let (depth, tuples) = if alpha { (4, "RGB_ALPHA") } else { (3, "RGB") };
    let head = format!("P7\nWIDTH {width}\nHEIGHT {height}\nDEPTH {depth}\nMAXVAL 255\nTUPLTYPE {tuples}\nENDHDR\n");
    let samples = pixels.chunks_exact(4).flat_map(|pixel| &pixel[..depth]).copied();
    head.bytes().chain(samples).collect()
}

/// The generator's next case that has pixels and breaks no bound. (7 is about
/// rooms that are lent, which are the command's own concern.)
fn sound(seed: u64, number: u64, [shift, reducing]: [u32; 2], nearest: bool) -> ToMode {
    let tables = own_tables(shift, nearest);
    let fixed = Some(Fixed { shift, reducing, tables: &tables });
    let made = |n| generate::case_with(Call::DitherToMode, seed, n, STYLE, fixed);
    let mut sound = (number << 16..).map(made).filter_map(|case| match (expected(&case).number(), case) {
        (0 | 7 | 8, Case::DitherToMode(case)) if !case.pixels.is_empty() => Some(case),
        _ => None,
    });
    sound.next().expect("most cases are sound")
}

/// A job in the making.
struct Maker<'a> {
    rng: Rng,
    how: How<'static>,
    case: ToMode,
    folder: &'a str,
    words: Vec<String>,
    before: Files,
}

/// Job `number`, with its files in a folder. Passes, modes, kinds and roundings
/// take turns, and the rest is chance. After ten turns, which have every kind, a mode
/// is passed over: so each kind meets each mode.
pub fn job(seed: u64, number: u64, folder: &str) -> Job {
    let of_pairing = |pairing: [u32; 2]| modes_of(pairing[0], pairing[1]).iter().map(move |&mode| (mode, pairing));
    let modes: Vec<(Mode, [u32; 2])> = PAIRINGS.into_iter().flat_map(of_pairing).collect();
    let turn = number as usize / 2;
    let ((mode, pairing), nearest) = (modes[(turn + turn / 10) % modes.len()], turn / 160 % 2 == 1);
    let (mut rng, how) = (Rng::new(seed ^ number << 32), How::own(mode, nearest));
    let mut case = sound(seed, number, pairing, nearest);
    case.kind = DRAWN.get(turn % 10).copied().unwrap_or_else(|| rng.pick(&RETIRED));
    let mut maker = Maker { rng, how, case, folder, words: Vec::new(), before: Files::new() };
    maker.picture();
    if number.is_multiple_of(2) { maker.draw() } else { maker.quantize() }
}

impl Maker<'_> {
    fn path(&self, name: &str) -> String {
        format!("{}/{name}", self.folder)
    }

    /// Gives an option. One that says what is usual is left out now and then.
    fn option(&mut self, name: &str, value: &str, usual: &str) {
        if value != usual || self.rng.one_in(2) {
            self.words.extend([name.into(), value.into()]);
        }
    }

    /// Puts a picture into a file. One in three has no alpha there, and then none
    /// in what is drawn.
    fn put(&mut self, name: &str, size: [u32; 2], pixels: &mut [u8]) {
        let alpha = !self.rng.one_in(3);
        if !alpha {
            pixels.iter_mut().skip(3).step_by(4).for_each(|byte| *byte = 255);
        }
        self.before.insert(name.into(), pam(size, pixels, alpha));
    }

    /// The files in and out. What the pixels are without transparency the command works
    /// out by itself, so that nothing else is lent.
    fn picture(&mut self) {
        let mut pixels = std::mem::take(&mut self.case.pixels);
        self.put("in.pam", [self.case.width, self.case.height], &mut pixels);
        self.case.opaque = if self.case.reducing == BY_ALPHA { vec![] } else { own_opaque(&pixels) };
        self.case.pixels = pixels;
        self.occupy("out.pam");
    }

    /// Every other time a file stands in an output's place. It is to be replaced, and
    /// by a refusal left.
    fn occupy(&mut self, name: &str) {
        if self.rng.one_in(2) {
            self.before.insert(name.into(), b"before".into());
        }
    }

    /// The job, with the words that both passes have. The original draws by a retired
    /// kind too, where the command must refuse and write nothing.
    fn job(mut self, pass: &str, drawn: Result<Files, String>) -> Job {
        let kind = self.case.kind;
        let written = if is_retired(kind) { Err(SAID_OF_RETIRED.into()) } else { drawn };
        let numbered = self.rng.one_in(4);
        let kind = if numbered { kind.to_string() } else { kind_names()[kind as usize].clone() };
        self.option("--mode", &format!("{:?}", self.how.mode), "Snes");
        self.option("--kind", &kind, "FloydSteinberg");
        self.option("--rounding", if self.how.nearest { "nearest" } else { "truncate" }, "truncate");
        self.words.extend([self.path("in.pam"), self.path("out.pam")]);
        self.words.insert(0, pass.into());
        Job { words: self.words, before: self.before, written }
    }

    fn out(&self, pixels: &[u8]) -> Files {
        Files::from([("out.pam".into(), pam([self.case.width, self.case.height], pixels, true))])
    }

    fn pixel(&mut self) -> Rgba {
        let place = self.rng.below(self.case.pixels.len() as u64 / 4) as usize;
        self.case.pixels[4 * place..4 * place + 4].try_into().unwrap()
    }

    fn draw(mut self) -> Job {
        self.zero();
        self.limit();
        let ([x, y], [width, height], limit) = (self.case.origin, self.case.tile, self.case.limit);
        self.option("--origin", &format!("{x},{y}"), "0,0");
        self.option("--tile", &format!("{width}x{height}"), "8x8");
        self.option("--limit", &limit.to_string(), "16");
        let drawn = original::dither_to_mode(self.how, &settings_of(&self.case), &self.case.pixels);
        let written = drawn.map(|(out, _)| self.out(&out)).ok_or_else(|| {
            let tile = self.model().tile.expect("the original says that a tile is over its limit");
            let across = self.case.width.div_ceil(width) as usize;
            format!("refused with 8: tile {tile} (column {}, row {},", tile % across, tile / across)
        });
        self.job("draw", written)
    }

    fn model(&self) -> model::Dithered {
        let tables = own_tables(self.case.shift, self.how.nearest);
        model::dither_to_mode(self.case.lent(&tables), &settings_of(&self.case))
    }

    /// Every other time a colour zero, mostly one that the picture has.
    fn zero(&mut self) {
        let [r, g, b, _] = if self.rng.one_in(4) { self.rng.u32().to_be_bytes() } else { self.pixel() };
        self.case.has_zero = self.rng.below(2) as u32;
        if self.case.has_zero == 1 {
            self.case.zero = original::reduce_color(self.how, [r, g, b, 255]);
            self.words.extend(["--zero".into(), hex(&[r, g, b])]);
        }
    }

    /// The usual limit, as many colours as the fullest tile has or one fewer, or
    /// the generator's.
    fn limit(&mut self) {
        match self.rng.below(4) {
            0 => self.case.limit = 16,
            1 => self.case.limit = (self.model().most_colors as u32).saturating_sub(self.rng.below(2) as u32).min(256),
            _ => {}
        }
    }

    /// Colours of full precision: the picture's, others, twins, near twins and
    /// transparent ones.
    fn palette(&mut self) -> Vec<Rgba> {
        let most = self.rng.pick(&[1, 4, 16, 64, 256]);
        let count = if self.rng.one_in(3) { most } else { self.rng.within(1, most) };
        let mut palette: Vec<Rgba> = Vec::new();
        while palette.len() < count as usize {
            let [r, g, b, a] = self.rng.u32().to_be_bytes();
            let entry = match self.rng.below(8) {
                0 if !palette.is_empty() => self.rng.pick(&palette),
                1 if !palette.is_empty() => self.rng.pick(&palette).map(|v| v ^ 1),
                2 => [r, g, b, a],
                3..6 => self.pixel(),
                _ => [r, g, b, 255],
            };
            palette.push(entry);
        }
        palette
    }

    fn quantize(mut self) -> Job {
        let mut palette = self.palette();
        let count = palette.len() as u32;
        let widths: Vec<u32> = (1..=count).filter(|width| count.is_multiple_of(*width)).collect();
        let across = self.rng.pick(&widths);
        self.put("palette.pam", [across, count / across], palette.as_flattened_mut());
        self.words.extend(["--palette".into(), self.path("palette.pam")]);
        let entries: Vec<u8> = palette.into_iter().flat_map(|entry| original::reduce_color(self.how, entry)).collect();
        let ToMode { kind, width, height, ref pixels, .. } = self.case;
        let drawn = original::quantize_pixels(self.how, kind, width, height, &entries, pixels);
        let mut written = self.out(&drawn.out);
        if !self.rng.one_in(4) {
            self.words.extend(["--indices".into(), self.path("indices")]);
            self.occupy("indices");
            written.insert("indices".into(), drawn.indices);
        }
        self.job("quantize", Ok(written))
    }
}
