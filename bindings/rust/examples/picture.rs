//! A picture of a job as SVG, on light and dark ground: region A with its points u, region B with their conjugates, and the point of the shortest pattern, ringed. A region that
//! is thin has a frame of its own below, along and across its direction, each to its own scale.
//!     picture < JOB > SVG
use bowujita::{pulses, raw::Shape, Point, Session};
use std::fmt::Write;
use std::io::{Read as _, Write as _};
use std::process::ExitCode;

type Plane = [f64; 2];

/// More points than this would be a blot.
const MOST: usize = 20_000;

/// Text and lines that can be read on white and on black.
const GREY: &str = "#808080";

fn dot(a: Plane, b: Plane) -> f64 {
    a[0] * b[0] + a[1] * b[1]
}

/// u = v/√2^k and its conjugate.
fn places(v: Point, k: u8) -> [Plane; 2] {
    let root = 2f64.sqrt();
    let [a, b, c, d] = [v.a, v.b, v.c, v.d].map(f64::from);
    [root, -root].map(|root| [(d + (c - a) / root) / root.powi(k.into()), (b + (c + a) / root) / root.powi(k.into())])
}

/// The border of a region, to be closed; none where it is empty.
fn border(s: &Shape) -> Vec<Plane> {
    let n = f64::from(s.n);
    let turn = |i: i32| f64::from(i).to_radians().sin_cos();
    match s.kind {
        2 if s.xl > s.xh || s.yl > s.yh => vec![],
        2 => {
            let [xl, xh, yl, yh] = [s.xl, s.xh, s.yl, s.yh].map(|z| f64::from(z) / n);
            vec![[xl, yl], [xh, yl], [xh, yh], [xl, yh]]
        }
        // by the root of the form, so that a thin one keeps its tips
        3 => {
            let [p, q, r, size] = [f64::from(s.p), f64::from(s.q), f64::from(s.r), f64::from(s.s)];
            let point = |(sin, cos): (f64, f64)| {
                let y = (size / (r - q * q / p)).sqrt() * sin;
                [(f64::from(s.cx) + (size / p).sqrt() * cos - q / p * y) / n, (f64::from(s.cy) + y) / n]
            };
            (0..360).step_by(2).map(|i| point(turn(i))).collect()
        }
        _ => {
            let (x, y) = (f64::from(s.zx), f64::from(s.zy));
            let cut = f64::from(s.w) / (n * x.hypot(y));
            if cut > 1.0 {
                return vec![];
            }
            let half = cut.max(-1.0).acos();
            (-90..=90).map(|i| y.atan2(x) + half * f64::from(i) / 90.0).map(|t| [t.cos(), t.sin()]).collect()
        }
    }
}

/// The direction along a region.
fn along(s: &Shape) -> Plane {
    let angle = match s.kind {
        2 if i64::from(s.xh) - i64::from(s.xl) >= i64::from(s.yh) - i64::from(s.yl) => return [1.0, 0.0],
        2 => return [0.0, 1.0],
        3 => (2.0 * f64::from(s.q)).atan2(f64::from(s.p) - f64::from(s.r)) / 2.0 + std::f64::consts::FRAC_PI_2,
        _ => f64::from(s.zy).atan2(f64::from(s.zx)) - std::f64::consts::FRAC_PI_2,
    };
    [angle.cos(), angle.sin()]
}

/// The least and the greatest of points in a direction.
fn ends(points: &[Plane], direction: Plane) -> [f64; 2] {
    points.iter().fold([f64::INFINITY, f64::NEG_INFINITY], |[lo, hi], &p| [lo.min(dot(p, direction)), hi.max(dot(p, direction))])
}

/// A number of a scale with that step.
fn number(z: f64, step: f64) -> String {
    let text = if z == 0.0 {
        "0".into()
    } else if step >= 1e-4 || z.abs() >= 1e-3 {
        format!("{z:.*}", (-step.log10().floor()).max(0.0) as usize)
    } else {
        format!("{z:.1e}").replace(".0e", "e")
    };
    text.replace('-', "−")
}

/// A part of the plane, by two directions at right angles, in a box of the picture.
struct Frame {
    directions: [Plane; 2],
    ends: [[f64; 2]; 2],
    left: f64,
    top: f64,
    size: [f64; 2],
}

impl Frame {
    /// With a margin around what is to be seen.
    fn new(directions: [Plane; 2], seen: [[f64; 2]; 2], left: f64, top: f64, size: [f64; 2]) -> Frame {
        let ends = seen.map(|[lo, hi]| [lo - 0.06 * (hi - lo), hi + 0.06 * (hi - lo)]);
        Frame { directions, ends, left, top, size }
    }

    fn at(&self, p: Plane) -> [f64; 2] {
        let part = |i: usize| (dot(p, self.directions[i]) - self.ends[i][0]) / (self.ends[i][1] - self.ends[i][0]) * self.size[i];
        [self.left + part(0), self.top + self.size[1] - part(1)]
    }

    /// Lines at round numbers, counted from `zero` in either direction, and the box.
    fn grid(&self, svg: &mut String, zero: [f64; 2]) {
        let [right, bottom] = [self.left + self.size[0], self.top + self.size[1]];
        for i in 0..2 {
            let (lo, hi) = (self.ends[i][0] - zero[i], self.ends[i][1] - zero[i]);
            let room = (hi - lo) / (self.size[i] / [70.0, 45.0][i]);
            let power = 10f64.powf(room.log10().floor());
            let step = [1.0, 2.0, 5.0, 10.0].map(|m| m * power).into_iter().find(|&s| s >= room).unwrap();
            for j in (lo / step).ceil() as i64..=(hi / step).floor() as i64 {
                let z = j as f64 * step;
                let px = (z - lo) / (hi - lo) * self.size[i];
                let opacity = if j == 0 { 0.8 } else { 0.25 };
                let text = number(z, step);
                if i == 0 {
                    let x = self.left + px;
                    writeln!(svg, r##"<path d="M{x:.1} {}V{bottom}" stroke-opacity="{opacity}"/><text x="{x:.1}" y="{}" text-anchor="middle">{text}</text>"##, self.top, bottom + 14.0).unwrap();
                } else {
                    let y = bottom - px;
                    writeln!(svg, r##"<path d="M{} {y:.1}H{right}" stroke-opacity="{opacity}"/><text x="{}" y="{:.1}" text-anchor="end">{text}</text>"##, self.left, self.left - 5.0, y + 4.0).unwrap();
                }
            }
        }
        writeln!(svg, r##"<rect x="{}" y="{}" width="{}" height="{}" fill="none"/>"##, self.left, self.top, self.size[0], self.size[1]).unwrap();
    }

    fn border(&self, svg: &mut String, border: &[Plane], colour: &str) {
        if border.is_empty() {
            return;
        }
        let places: Vec<Plane> = border.iter().map(|&p| self.at(p)).collect();
        let [x, y] = [[1.0, 0.0], [0.0, 1.0]].map(|d| ends(&places, d));
        if x[1] - x[0] < 8.0 && y[1] - y[0] < 8.0 {
            // so small that only a ring shows where it is
            writeln!(svg, r##"<circle cx="{:.1}" cy="{:.1}" r="11" fill="none" stroke="{colour}" stroke-width="1.5"/>"##, (x[0] + x[1]) / 2.0, (y[0] + y[1]) / 2.0).unwrap();
        }
        let mut corners: Vec<String> = places.iter().map(|[x, y]| format!("{x:.1} {y:.1}")).collect();
        corners.dedup();
        writeln!(svg, r##"<path d="M{}Z" fill="{colour}" fill-opacity="0.18" stroke="{colour}" stroke-width="1.5" stroke-linejoin="round"/>"##, corners.join("L")).unwrap();
    }

    fn points(&self, svg: &mut String, points: &[Plane], shortest: Option<Plane>) {
        let width = (90.0 / (points.len() as f64).sqrt()).clamp(2.0, 6.0);
        let places: String = points.iter().map(|&p| self.at(p)).map(|[x, y]| format!("M{x:.1} {y:.1}h0")).collect();
        writeln!(svg, r##"<path d="{places}" stroke="#3b82f6" stroke-width="{width:.1}" stroke-linecap="round"/>"##).unwrap();
        if let Some([x, y]) = shortest.map(|p| self.at(p)) {
            mark(svg, x, y);
        }
    }
}

/// The mark of the shortest pattern's point.
fn mark(svg: &mut String, x: f64, y: f64) {
    writeln!(svg, r##"<g stroke="#e11d48" fill="none"><circle cx="{x:.1}" cy="{y:.1}" r="7" stroke-width="2"/><path d="M{x:.1} {y:.1}h0" stroke-width="6" stroke-linecap="round"/></g>"##).unwrap();
}

fn title(svg: &mut String, x: f64, y: f64, text: &str) {
    writeln!(svg, r##"<text x="{x}" y="{y}" font-size="14">{text}</text>"##).unwrap();
}

fn main() -> ExitCode {
    match run() {
        Ok(()) => ExitCode::SUCCESS,
        Err(why) => {
            eprintln!("picture: {why}");
            ExitCode::FAILURE
        }
    }
}

fn run() -> Result<(), String> {
    if std::env::args().len() > 1 {
        return Err("usage: picture < JOB > SVG".into());
    }
    let mut job = vec![];
    std::io::stdin().read_to_end(&mut job).map_err(|e| e.to_string())?;
    std::io::stdout().write_all(picture(&job)?.as_bytes()).map_err(|e| e.to_string())
}

fn picture(job: &[u8]) -> Result<String, String> {
    let mut session = Session::new();
    session.read_all(job).map_err(|(e, at)| format!("{e}, at byte {at}"))?;
    let k = session.scale();
    let listed: Vec<Point> = session.points().map_err(|e| e.to_string())?.take(MOST + 1).collect();
    if listed.len() > MOST {
        return Err(format!("the job has more than {MOST} points: take a smaller scale or smaller regions"));
    }
    let places = |i: usize| listed.iter().map(|&v| places(v, k)[i]).collect::<Vec<Plane>>();
    let pattern = session.shortest().ok();
    let shapes = [session.as_raw().a, session.as_raw().b];

    let mut body = String::new();
    let mut top = 72.0;
    let said = pattern.map_or("no pattern up to this scale".into(), |p| format!("shortest pattern: scale {}, {} T", p.scale, pulses(p.u.exponent(p.scale))));
    let kind = if session.as_raw().all == 0 { "new point" } else { "point" };
    title(&mut body, 48.0, 24.0, &format!("scale {k}, {} {kind}{}", listed.len(), if listed.len() == 1 { "" } else { "s" }));
    title(&mut body, 470.0, 24.0, &said);
    if pattern.is_some() {
        mark(&mut body, 454.0, 19.5);
    }
    let sides = [("A", "its points u", "u", "#d97706"), ("B", "their conjugates u•", "u•", "#059669")];
    for (i, (name, holds, _, colour)) in sides.into_iter().enumerate() {
        let border = border(&shapes[i]);
        // a slice in its disk, anything else as large as it can be
        let disk = ![2, 3].contains(&shapes[i].kind) || border.is_empty();
        let [x, y] = if disk { [[-1.0, 1.0]; 2] } else { [ends(&border, [1.0, 0.0]), ends(&border, [0.0, 1.0])] };
        // around a single point, a square of side 1
        let half = Some((x[1] - x[0]).max(y[1] - y[0]) / 2.0).filter(|&half| half > 1e-11).unwrap_or(0.5);
        let square = [x, y].map(|[lo, hi]| [(lo + hi) / 2.0 - half, (lo + hi) / 2.0 + half]);
        let left = 48.0 + 400.0 * i as f64;
        let frame = Frame::new([[1.0, 0.0], [0.0, 1.0]], square, left, top, [320.0, 320.0]);
        title(&mut body, left, top - 10.0, &if border.is_empty() { format!("{name}, which is empty") } else { format!("{name}, and {holds}") });
        frame.grid(&mut body, [0.0, 0.0]);
        if disk {
            let ([x, y], [edge, _]) = (frame.at([0.0, 0.0]), frame.at([1.0, 0.0]));
            writeln!(body, r##"<circle cx="{x:.1}" cy="{y:.1}" r="{:.1}" fill="none" stroke-opacity="0.8"/>"##, edge - x).unwrap();
        }
        frame.border(&mut body, &border, colour);
        frame.points(&mut body, &places(i), pattern.map(|p| self::places(p.u, p.scale)[i]));
    }
    top += 384.0;
    for (i, (name, _, point, colour)) in sides.into_iter().enumerate() {
        let border = border(&shapes[i]);
        let e = along(&shapes[i]);
        let directions = [e, [-e[1], e[0]]];
        let seen = directions.map(|d| ends(&border, d));
        let [length, depth] = seen.map(|[lo, hi]| hi - lo);
        // thin, and not a segment: no record says a width of less than a ten billionth
        if !(1e-11 < depth && depth * 8.0 < length) {
            continue;
        }
        title(&mut body, 48.0, top - 10.0, &format!("{name} along and across, each to its own scale: {} by {}, from {point} = {}", short(length), short(depth), middle(&seen, directions)));
        let frame = Frame::new(directions, seen, 60.0, top, [708.0, 220.0]);
        frame.grid(&mut body, [(seen[0][0] + seen[0][1]) / 2.0, seen[1][0]]);
        frame.border(&mut body, &border, colour);
        frame.points(&mut body, &places(i), pattern.map(|p| self::places(p.u, p.scale)[i]));
        top += 284.0;
    }
    let head = format!(r##"<svg xmlns="http://www.w3.org/2000/svg" width="800" height="{0}" viewBox="0 0 800 {0}" font-family="sans-serif" font-size="11" stroke="{GREY}"><style>text{{fill:{GREY};stroke:none}}</style>"##, top - 34.0);
    Ok(format!("{head}\n{body}</svg>\n"))
}

/// A length by its first two digits.
fn short(z: f64) -> String {
    let place = z.log10().floor();
    if place < -4.0 { number(z, z) } else { format!("{z:.*}", (1.0 - place).max(0.0) as usize) }
}

/// Where a frame's numbers begin: the middle of its lower edge.
fn middle(seen: &[[f64; 2]; 2], directions: [Plane; 2]) -> String {
    let (s, t) = ((seen[0][0] + seen[0][1]) / 2.0, seen[1][0]);
    let [x, y] = [0, 1].map(|i| s * directions[0][i] + t * directions[1][i]);
    format!("{x:.4} {} {:.4}i", if y < 0.0 { "−" } else { "+" }, y.abs()).replace('-', "−")
}
