//! The portrait: a bust of a few rounded bodies under two lights, in flat shades
//! before a smooth ground, so that a tile has few colours and dithering something
//! to work on. It is drawn from distances: a ray walks on
//! by its distance from the nearest body until it meets one. Only sums,
//! products, quotients and square roots are taken, so that it is the same
//! picture everywhere.

/// Right, up, and toward the viewer; or a colour's three shares of light.
type Vector = [f32; 3];

fn plus(a: Vector, b: Vector, times: f32) -> Vector {
    [0, 1, 2].map(|k| a[k] + times * b[k])
}

fn dot(a: Vector, b: Vector) -> f32 {
    a[0] * b[0] + a[1] * b[1] + a[2] * b[2]
}

fn length(a: Vector) -> f32 {
    dot(a, a).sqrt()
}

fn unit(a: Vector) -> Vector {
    let length = length(a);
    a.map(|v| v / length)
}

fn mixed(a: Vector, b: Vector, t: f32) -> Vector {
    [0, 1, 2].map(|k| a[k] + (b[k] - a[k]) * t.clamp(0.0, 1.0))
}

/// About the distance from an ellipsoid.
fn ellipsoid(p: Vector, center: Vector, radii: Vector) -> f32 {
    let q = [0, 1, 2].map(|k| (p[k] - center[k]) / radii[k]);
    let slope = length([0, 1, 2].map(|k| q[k] / radii[k]));
    length(q) * (length(q) - 1.0) / slope.max(1e-6)
}

/// The distance from a rod with round ends.
fn rod(p: Vector, from: Vector, to: Vector, radius: f32) -> f32 {
    let (p, way) = (plus(p, from, -1.0), plus(to, from, -1.0));
    let along = (dot(p, way) / dot(way, way)).clamp(0.0, 1.0);
    length(plus(p, way, -along)) - radius
}

/// The nearer of two bodies, their seam rounded over a width.
fn joined(a: f32, b: f32, width: f32) -> f32 {
    let h = (width - (a - b).abs()).max(0.0) / width;
    a.min(b) - h * h * width / 4.0
}

/// The first body without the second, the edge rounded over a width.
fn without(a: f32, b: f32, width: f32) -> f32 {
    -joined(-a, b, width)
}

/// What a body is made of: its colour, and how much it shines.
#[derive(Clone, Copy)]
struct Stuff {
    color: Vector,
    shine: f32,
}

const SKIN: Stuff = Stuff { color: [0.92, 0.60, 0.43], shine: 0.12 };
const LIPS: Stuff = Stuff { color: [0.62, 0.10, 0.10], shine: 0.25 };
const HAIR: Stuff = Stuff { color: [0.20, 0.065, 0.03], shine: 0.35 };
const EYE: Stuff = Stuff { color: [0.85, 0.85, 0.82], shine: 0.2 };
const IRIS: Stuff = Stuff { color: [0.02, 0.05, 0.05], shine: 0.9 };
const CLOTH: Stuff = Stuff { color: [0.03, 0.24, 0.27], shine: 0.05 };
const COLLAR: Stuff = Stuff { color: [0.75, 0.70, 0.58], shine: 0.05 };

/// The head is turned to the side by some 20 degrees and not tilted.
fn turned([x, y, z]: Vector) -> Vector {
    const COSINE: f32 = 0.94;
    const SINE: f32 = 0.342;
    [COSINE * x - SINE * z, y, SINE * x + COSINE * z]
}

fn face(p: Vector) -> f32 {
    let q = [p[0].abs(), p[1], p[2]];
    let skull = ellipsoid(p, [0.0, 0.16, 0.0], [0.55, 0.64, 0.60]);
    let jaw = ellipsoid(p, [0.0, -0.24, 0.14], [0.40, 0.43, 0.42]);
    let cheek = ellipsoid(q, [0.27, -0.10, 0.38], [0.15, 0.16, 0.14]);
    let socket = ellipsoid(q, [0.215, 0.12, 0.62], [0.13, 0.085, 0.12]);
    let head = joined(joined(skull, jaw, 0.25), cheek, 0.16);
    let head = without(head, socket, 0.12);
    let nose = joined(
        rod(p, [0.0, 0.14, 0.55], [0.0, -0.09, 0.66], 0.045),
        ellipsoid(p, [0.0, -0.12, 0.64], [0.085, 0.065, 0.085]),
        0.08,
    );
    let ear = ellipsoid(q, [0.55, 0.02, -0.03], [0.07, 0.15, 0.11]);
    let chin = ellipsoid(p, [0.0, -0.55, 0.42], [0.14, 0.10, 0.12]);
    joined(joined(joined(head, nose, 0.09), ear, 0.05), chin, 0.16)
}

fn hair(p: Vector) -> f32 {
    let cap = ellipsoid(p, [0.0, 0.25, -0.07], [0.64, 0.66, 0.66]);
    // Cut away in front of the face: the hairline.
    let front = ellipsoid(p, [0.06, -0.10, 0.60], [0.50, 0.62, 0.50]);
    let cap = without(cap, front, 0.10);
    let bun = ellipsoid(p, [0.0, 0.86, -0.20], [0.27, 0.24, 0.27]);
    let nape = ellipsoid(p, [0.0, -0.18, -0.30], [0.50, 0.52, 0.34]);
    joined(joined(cap, nape, 0.15), bun, 0.06)
}

/// The distance from the nearest body, and what that is made of.
fn nearest(p: Vector) -> (f32, Stuff) {
    let h = turned(p);
    let q = [h[0].abs(), h[1], h[2]];
    let neck = rod(p, [0.0, -0.55, -0.08], [0.0, -1.05, -0.16], 0.225);
    let skin = joined(face(h), neck, 0.10);
    let shoulders = ellipsoid(p, [0.0, -1.62, -0.18], [1.08, 0.60, 0.48]);
    let collar = ellipsoid(p, [0.0, -1.03, -0.10], [0.34, 0.10, 0.34]);
    let upper = rod(q, [0.0, -0.315, 0.565], [0.11, -0.345, 0.50], 0.028);
    let lower = rod(q, [0.0, -0.375, 0.555], [0.08, -0.365, 0.515], 0.033);
    let brow = rod(q, [0.11, 0.245, 0.585], [0.33, 0.255, 0.475], 0.022);
    let ball = ellipsoid(q, [0.215, 0.105, 0.465], [0.098, 0.062, 0.080]);
    let iris = ellipsoid(q, [0.205, 0.105, 0.525], [0.048, 0.054, 0.035]);
    let bodies = [
        (skin, SKIN),
        (hair(h), HAIR),
        (brow, HAIR),
        (ball, EYE),
        (iris, IRIS),
        (joined(upper, lower, 0.03), LIPS),
        (shoulders, CLOTH),
        (collar, COLLAR),
    ];
    bodies.into_iter().min_by(|a, b| a.0.total_cmp(&b.0)).unwrap()
}

/// The way out of the body at a point near its surface.
fn normal(p: Vector) -> Vector {
    const STEP: f32 = 0.004;
    let slope = |k: usize| {
        let mut step = [0.0; 3];
        step[k] = STEP;
        nearest(plus(p, step, 1.0)).0 - nearest(plus(p, step, -1.0)).0
    };
    unit([0, 1, 2].map(slope))
}

/// How open a point is to a direction, from 0 to 1: less where bodies are near.
fn open(p: Vector, toward: Vector, steps: &[f32]) -> f32 {
    let shut = steps.iter().map(|&t| (t - nearest(plus(p, toward, t)).0).max(0.0) / t);
    1.0 - shut.fold(0.0, f32::max)
}

/// The light that comes from everywhere.
const SKY: f32 = 0.4;

fn shaded(p: Vector, stuff: Stuff) -> Vector {
    let out = normal(p);
    let p = plus(p, out, 0.01);
    let key = unit([-0.50, 0.52, 0.70]);
    let rim = unit([0.85, 0.25, -0.30]);
    let shade = open(p, key, &[0.08, 0.16, 0.30, 0.5, 0.8]);
    let key_light = dot(out, key).max(0.0) * (0.12 + 0.88 * shade) * 1.05;
    let rim_light = dot(out, rim).max(0.0) * 0.55;
    // Halfway between the light and the viewer, to the sixteenth power.
    let half = unit(plus(key, [0.0, 0.0, 1.0], 1.0));
    let gleam = (0..4).fold(dot(out, half).max(0.0), |g, _| g * g) * stuff.shine * shade;
    let key_light = stepped(key_light, 2.0);
    let rim_light = stepped(rim_light, 1.5);
    let gleam = stepped(gleam, 2.0);
    let light = [0, 1, 2]
        .map(|k| key_light * [1.05, 0.98, 0.86][k] + rim_light * [0.70, 0.75, 1.00][k] + SKY * [0.72, 0.70, 0.86][k]);
    [0, 1, 2].map(|k| stuff.color[k] * light[k] + gleam)
}

/// Light in few steps, so many to one unit: a tile then has few colours.
fn stepped(light: f32, steps: f32) -> f32 {
    (light * steps + 0.5).floor() / steps
}

/// Dusk: from a warm light low on the left to blue above.
fn ground(x: f32, y: f32) -> Vector {
    let glow = 1.0 - length([x + 0.55, (y + 0.35) * 0.9, 0.0]) / 1.9;
    mixed([0.045, 0.06, 0.20], [0.86, 0.52, 0.30], glow * glow.max(0.0) * 1.25)
}

/// The light that comes from a place of the picture.
fn seen(x: f32, y: f32) -> Vector {
    let mut p = [x, y, 1.6];
    for _ in 0..90 {
        let (distance, stuff) = nearest(p);
        if distance < 0.002 {
            return shaded(p, stuff);
        }
        p[2] -= 0.8 * distance;
        if p[2] < -1.6 {
            break;
        }
    }
    ground(x, y)
}

/// Four bytes a pixel, opaque, each pixel what is seen at its middle.
pub fn portrait(side: usize) -> Vec<u8> {
    const SPAN: f32 = 2.62;
    let place = |k: usize| (k as f32 + 0.5) / side as f32 * SPAN;
    let pixel = |i: usize| {
        let light = seen(place(i % side) - SPAN / 2.0, 1.20 - place(i / side));
        // A square root stands for the screen's own curve.
        let [r, g, b] = light.map(|v| (v.min(1.0).sqrt() * 255.0 + 0.5) as u8);
        [r, g, b, 255]
    };
    (0..side * side).flat_map(pixel).collect()
}
