//! Draws growth: two panels side by side, both axes logarithmic, the original
//! dashed with hollow dots and the port in full. A grey line has the slope of
//! what grows in proportion.

use sheet::canvas::{Canvas, Color, Point, Side, WHITE};

use crate::growth::{Growth, KINDS};

const INK: Color = [40, 42, 54];
const FAINT: Color = [226, 228, 234];
const GUIDE: Color = [176, 180, 190];
/// One for each kind.
const COLORS: [Color; 3] = [[38, 99, 168], [217, 112, 32], [36, 138, 92]];

/// The inside of a panel, and where the first one stands.
const INNER: [usize; 2] = [330, 300];
const LEFT: usize = 92;
const TOP: usize = 64;
const BETWEEN: usize = 40;
/// The canvas.
const SIZE: [usize; 2] = [LEFT + 2 * INNER[0] + BETWEEN + 24, TOP + INNER[1] + 126];

/// The whole powers of ten around all times.
fn decades(panels: &[Growth]) -> [i32; 2] {
    let times = || panels.iter().flat_map(|p| &p.points).flat_map(|(_, _, times)| times.iter().flatten());
    let (least, most) = times().fold((f64::MAX, 0.0f64), |(low, high), &t| (low.min(t), high.max(t)));
    [least.log10().floor() as i32, most.log10().ceil() as i32]
}

/// One panel: its left edge and its ranges, in powers of two and of ten.
struct Panel {
    left: usize,
    sizes: [f64; 2],
    times: [i32; 2],
}

impl Panel {
    fn new(growth: &Growth, left: usize, times: [i32; 2]) -> Panel {
        let (first, last) = (growth.points[0].0, growth.points[growth.points.len() - 1].0);
        Panel { left, sizes: [first.log2() - 0.6, last.log2() + 0.6], times }
    }

    fn x(&self, size: f64) -> f32 {
        let along = (size.log2() - self.sizes[0]) / (self.sizes[1] - self.sizes[0]);
        self.left as f32 + along as f32 * INNER[0] as f32
    }

    fn y(&self, time: f64) -> f32 {
        let along = (time.log10() - f64::from(self.times[0])) / f64::from(self.times[1] - self.times[0]);
        (TOP + INNER[1]) as f32 - along as f32 * INNER[1] as f32
    }

    fn at(&self, size: f64, time: f64) -> Point {
        [self.x(size), self.y(time)]
    }

    /// Grid, edges, titles and what is written at the sizes.
    fn frame(&self, canvas: &mut Canvas, growth: &Growth) {
        let (right, bottom) = (self.left + INNER[0], TOP + INNER[1]);
        for decade in self.times[0]..=self.times[1] {
            let y = self.y(10f64.powi(decade)) as usize;
            canvas.fill([self.left, y], [INNER[0], 1], FAINT);
        }
        // At most six labels have room.
        let step = growth.points.len().div_ceil(6);
        for (k, (size, name, _)) in growth.points.iter().enumerate() {
            let x = self.x(*size) as usize;
            canvas.fill([x, TOP], [1, INNER[1]], FAINT);
            if (growth.points.len() - 1 - k).is_multiple_of(step) {
                canvas.text([x, bottom + 9], Side::Middle, 2, INK, name);
            }
        }
        canvas.fill([self.left, TOP], [1, INNER[1]], INK);
        canvas.fill([self.left, bottom], [right - self.left, 1], INK);
        canvas.text([self.left + INNER[0] / 2, TOP - 25], Side::Middle, 2, INK, growth.title);
        canvas.text([self.left + INNER[0] / 2, bottom + 32], Side::Middle, 2, INK, growth.of);
    }

    /// A line of growth in proportion, under all others as far as it goes.
    fn guide(&self, canvas: &mut Canvas, growth: &Growth) {
        let (last, _, times) = &growth.points[growth.points.len() - 1];
        let time = times.iter().flatten().fold(f64::MAX, |least, &time| least.min(time)) / 2.5;
        let floor = 10f64.powi(self.times[0]);
        let first = growth.points[0].0.max(last * floor / time);
        canvas.line(self.at(first, time * first / last), self.at(*last, time), 1.5, GUIDE);
    }

    /// The lines of every kind, the original below the port.
    fn lines(&self, canvas: &mut Canvas, growth: &Growth) {
        for who in [0, 1] {
            for (kind, color) in COLORS.into_iter().enumerate() {
                let points: Vec<Point> =
                    growth.points.iter().map(|(size, _, times)| self.at(*size, times[kind][who])).collect();
                sample(canvas, &points, color, who == 1);
            }
        }
    }
}

/// A line through points: full with dots, or dashed with hollow dots.
fn sample(canvas: &mut Canvas, points: &[Point], color: Color, full: bool) {
    for ends in points.windows(2) {
        match full {
            true => canvas.line(ends[0], ends[1], 2.4, color),
            false => canvas.dashes(ends[0], ends[1], 1.8, color),
        }
    }
    for &point in points {
        canvas.dot(point, 8.5, color);
        if !full {
            canvas.dot(point, 4.5, WHITE);
        }
    }
}

/// A time in milliseconds that is a power of ten, in words.
fn named(decade: i32) -> String {
    match decade {
        ..0 => format!("{:.*} ms", -decade as usize, 10f64.powi(decade)),
        0..=2 => format!("{} ms", 10u32.pow(decade as u32)),
        _ => format!("{} s", 10u32.pow(decade as u32 - 3)),
    }
}

/// What the lines and the colours stand for.
fn legend(canvas: &mut Canvas) {
    let y = TOP + INNER[1] + 70;
    let line = |x: usize, y: usize| [4, 32].map(|dx| [(x + dx) as f32, y as f32 + 7.0]);
    let columns = [LEFT, LEFT + 210, LEFT + 470];
    for (x, (name, full)) in columns.into_iter().zip([("port", true), ("original", false)]) {
        sample(canvas, &line(x, y), INK, full);
        canvas.text([x + 44, y], Side::Right, 2, INK, name);
    }
    let [from, to] = line(columns[2], y);
    canvas.line(from, to, 1.5, GUIDE);
    canvas.text([columns[2] + 44, y], Side::Right, 2, INK, "in proportion");
    for (x, ((_, _, name), color)) in columns.into_iter().zip(KINDS.into_iter().zip(COLORS)) {
        sample(canvas, &line(x, y + 26), color, true);
        canvas.text([x + 44, y + 26], Side::Right, 2, INK, name);
    }
}

pub fn drawn(panels: &[Growth; 2]) -> Canvas {
    let mut canvas = Canvas::new(SIZE[0], SIZE[1], WHITE);
    let times = decades(panels);
    canvas.text([SIZE[0] / 2, 10], Side::Middle, 2, INK, "Time of a call");
    for (growth, left) in panels.iter().zip([LEFT, LEFT + INNER[0] + BETWEEN]) {
        let panel = Panel::new(growth, left, times);
        panel.frame(&mut canvas, growth);
        panel.guide(&mut canvas, growth);
        panel.lines(&mut canvas, growth);
    }
    for decade in times[0]..=times[1] {
        let step = INNER[1] * (decade - times[0]) as usize / (times[1] - times[0]) as usize;
        canvas.text([LEFT - 9, TOP + INNER[1] - step - 7], Side::Left, 2, INK, &named(decade));
    }
    legend(&mut canvas);
    canvas
}
