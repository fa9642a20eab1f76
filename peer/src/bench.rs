//! The jobs of the benchmark, by families.

use crate::job::{encode, ELLIPSE, RECTANGLE, SCALE, SELECTION, SLICE};

/// A region's kind and values.
type Region = (u8, Vec<i64>);

/// A name that begins with the job's family, and its records.
pub type Named = (String, Vec<Vec<u8>>);

const DISK: [i64; 3] = [1, 0, 1];

const FAR: [i64; 2] = [-10_000, 10_000];

/// P, Q and R with PR − Q² from 1 to 4, and with P and R from 90 on and the
/// least PR − Q²; each is used with the one after it.
const FORMS: [[i64; 3]; 8] = [
    [65, 73, 82],
    [73, 85, 99],
    [97, 80, 66],
    [66, 74, 83],
    [99, 94, 90],
    [91, 95, 100],
    [98, 94, 91],
    [92, 95, 99],
];

/// Thin slices, n = 100: zx, zy and w, about 0.9, 0.99, 0.999 and 0.9999 of its
/// greatest; then the ellipse, n = 100, of the least area that has one of them
/// inside: centre, form and S.
const SLICES: [([i64; 3], [i64; 2], [i64; 3], i64); 12] = [
    ([60, 80, 9000], [57, 74], [38, 49, 68], 4564),
    ([60, 80, 9900], [59, 80], [53, 70, 93], 64),
    ([60, 80, 9990], [60, 80], [51, 68, 91], 4),
    ([60, 80, 9999], [60, 80], [57, 75, 100], 1),
    ([-99, 13, 8986], [-92, 14], [86, -10, 3], 4296),
    ([-99, 13, 9885], [-99, 10], [91, -13, 2], 50),
    ([-99, 13, 9975], [-99, 13], [54, -7, 1], 2),
    ([-99, 13, 9984], [-99, 14], [92, -13, 2], 1),
    ([71, -70, 8973], [66, -66], [74, -70, 71], 6339),
    ([71, -70, 9871], [71, -69], [55, -54, 54], 110),
    ([71, -70, 9960], [72, -69], [96, -91, 87], 15),
    ([71, -70, 9969], [72, -69], [95, -79, 68], 14),
];

pub fn jobs() -> Vec<Named> {
    let (low, high) = ([0, 3, 4, 6, 8, 10, 12], [13, 16, 20]);
    let some = [0, 6, 12];
    let plain = [disks(), tilted(), whole(), skewed("skewed", &low), reduction()];
    let narrow = [zero("zero", &some), thin("thin", &some)];
    let deep = [
        deep_disks(),
        skewed("deep_skewed", &high),
        zero("deep_zero", &high),
        thin("deep_thin", &high),
    ];
    let later = [slices(), selections(), patterns()];
    [plain.concat(), narrow.concat(), deep.concat(), later.concat()].concat()
}

/// A job of all points.
fn job(name: String, k: i64, a: &Region, b: &Region) -> Named {
    selected(name, k, 1, a, b)
}

fn selected(name: String, k: i64, byte: i64, a: &Region, b: &Region) -> Named {
    let records =
        vec![encode(SCALE, &[k]), encode(SELECTION, &[byte]), encode(a.0, &a.1), encode(b.0, &b.1)];
    (name, records)
}

fn rectangle(n: i64, [xl, xh]: [i64; 2], [yl, yh]: [i64; 2]) -> Region {
    (RECTANGLE, vec![n, xl, xh, yl, yh])
}

fn ellipse(n: i64, [cx, cy]: [i64; 2], [p, q, r]: [i64; 3], s: i64) -> Region {
    (ELLIPSE, vec![n, cx, cy, p, q, r, s])
}

fn slice([zx, zy, w]: [i64; 3]) -> Region {
    (SLICE, vec![100, zx, zy, w])
}

fn disk() -> Region {
    ellipse(1, [0, 0], DISK, 1)
}

fn disks() -> Vec<Named> {
    [8, 10, 12].map(|k| job(format!("disks-k{k:02}"), k, &disk(), &disk())).to_vec()
}

fn deep_disks() -> Vec<Named> {
    [13, 16, 20].map(|k| job(format!("deep_disks-k{k}"), k, &disk(), &disk())).to_vec()
}

/// A of semi-axes 0.107 and 0.00093, tilted, and B the unit disk.
fn tilted() -> Vec<Named> {
    let centred = ellipse(100, [0, 0], [50, 57, 65], 1);
    let off = ellipse(100, [55, 31], [50, -57, 65], 1);
    (8..=12)
        .flat_map(|k| {
            [
                job(format!("tilted-centred-k{k:02}"), k, &centred, &disk()),
                job(format!("tilted-off-k{k:02}"), k, &off, &disk()),
            ]
        })
        .collect()
}

/// Thin slices as A and the unit disk as B, each beside the ellipse around it.
fn slices() -> Vec<Named> {
    let mut jobs = Vec::new();
    for (fields, centre, form, s) in SLICES {
        let [zx, zy, w] = fields;
        for k in [0, 2, 4, 6, 8, 10, 12] {
            let name = format!("{zx}_{zy}-w{w}-k{k:02}");
            jobs.push(job(format!("slice-{name}"), k, &slice(fields), &disk()));
            let around = ellipse(100, centre, form, s);
            jobs.push(job(format!("around-{name}"), k, &around, &disk()));
        }
    }
    jobs
}

/// The same regions with all points and with the new ones.
fn selections() -> Vec<Named> {
    let tilted = ellipse(100, [55, 31], [50, -57, 65], 1);
    let [crossed_a, crossed_b] = crossed(100, [[0, 0]; 2], 0, 10_000);
    let regions = [
        ("disks", 8, disk(), disk()),
        ("disks", 10, disk(), disk()),
        ("slice", 12, slice([60, 80, 9_000]), disk()),
        ("tilted", 12, tilted, disk()),
        ("crossed", 8, crossed_a, crossed_b),
    ];
    let both = |(name, k, a, b): (&str, i64, Region, Region)| {
        [(1, "all"), (0, "new")]
            .map(|(byte, which)| selected(format!("{which}-{name}-k{k:02}"), k, byte, &a, &b))
    };
    regions.into_iter().flat_map(both).collect()
}

/// Jobs for the shortest pattern: slices as A and the unit disk as B with the
/// largest scale as the top, and regions of all points.
fn patterns() -> Vec<Named> {
    let everything = rectangle(1, FAR, FAR);
    let outside = rectangle(1, [2, 10_000], FAR);
    let mut jobs: Vec<Named> = SLICES
        .iter()
        .map(|&([zx, zy, w], ..)| {
            job(format!("pattern-{zx}_{zy}-w{w}-k20"), 20, &slice([zx, zy, w]), &disk())
        })
        .collect();
    // The thinnest that are not empty: ε from 0.0004 to 0.0012.
    for [zx, zy, w] in [[26, 89, 9_272], [-93, 96, 13_366], [72, -76, 10_469], [-65, -71, 9_626]] {
        let name = format!("pattern-{zx}_{zy}-w{w}-k20");
        jobs.push(job(name, 20, &slice([zx, zy, w]), &disk()));
    }
    jobs.push(job("pattern-everything-k20".into(), 20, &everything, &everything));
    jobs.push(job("pattern-outside-k20".into(), 20, &outside, &everything));
    jobs
}

/// Skewed ellipses on both sides whose lists are not too long, a long thin A, and
/// a tiny disk against a huge one.
fn whole() -> Vec<Named> {
    let sizes =
        [(0, 1_000_000), (4, 1_000_000), (4, 10_000), (8, 10_000), (8, 100), (12, 100), (12, 1)];
    let mut jobs: Vec<Named> = sizes
        .iter()
        .map(|&(k, s)| {
            let [a, b] = crossed(100, [[0, 0]; 2], 0, s);
            job(format!("whole-n100-S{s}-k{k:02}"), k, &a, &b)
        })
        .collect();
    for k in [0, 4] {
        let a = ellipse(7, [123, -456], [83, -91, 100], 1_000);
        let b = ellipse(7, [-30, 40], [82, 73, 65], 1_000);
        jobs.push(job(format!("whole-n7-S1000-off-k{k:02}"), k, &a, &b));
    }
    let long = ellipse(1, [0, 0], [1, 0, 100], 16);
    for k in [8, 10] {
        jobs.push(job(format!("whole-long-thin-k{k:02}"), k, &long, &disk()));
    }
    let (tiny, huge) =
        (ellipse(100, [0, 0], [100, 0, 100], 4_144), ellipse(1, [0, 0], DISK, 1_000_000));
    jobs.push(job("whole-tiny-huge-k00".into(), 0, &tiny, &huge));
    jobs.push(job("whole-huge-tiny-k00".into(), 0, &huge, &tiny));
    jobs
}

fn crossed(n: i64, [a, b]: [[i64; 2]; 2], form: usize, s: i64) -> [Region; 2] {
    let [p, q, r] = FORMS[(form + 1) % FORMS.len()];
    [ellipse(n, a, FORMS[form], s), ellipse(n, b, [p, -q, r], s)]
}

fn alike(n: i64, [a, b]: [[i64; 2]; 2], form: usize, s: i64) -> [Region; 2] {
    [ellipse(n, a, FORMS[form], s), ellipse(n, b, FORMS[(form + 1) % FORMS.len()], s)]
}

fn skewed(family: &str, scales: &[i64]) -> Vec<Named> {
    let mut jobs = Vec::new();
    for (form, [p, q, r]) in FORMS.iter().enumerate() {
        for s in [1, 100, 10_000, 100_000, 1_000_000] {
            for n in [1, 10, 100] {
                for (place, centres) in [("centred", [[0, 0]; 2]), ("off", [[37, -11], [5, 91]])] {
                    let alone = ellipse(n, centres[0], FORMS[form], s);
                    let sides = [
                        ("A", [alone.clone(), disk()]),
                        ("B", [disk(), alone]),
                        ("crossed", crossed(n, centres, form, s)),
                        ("alike", alike(n, centres, form, s)),
                    ];
                    for (side, [a, b]) in sides {
                        for &k in scales {
                            let name =
                                format!("{family}-{side}-{p}_{q}_{r}-n{n}-S{s}-{place}-k{k:02}");
                            jobs.push(job(name, k, &a, &b));
                        }
                    }
                }
            }
        }
    }
    jobs
}

/// Regions of zero width, of one point, and the wrong way round, against all.
fn zero(family: &str, scales: &[i64]) -> Vec<Named> {
    let far = FAR;
    let regions = [
        ("x0", rectangle(1, [0, 0], far)),
        ("x1", rectangle(1, [1, 1], far)),
        ("x_third", rectangle(3, [1, 1], far)),
        ("x1_short", rectangle(1, [1, 1], [-10, 10])),
        ("y0", rectangle(1, far, [0, 0])),
        ("y1", rectangle(1, far, [1, 1])),
        ("y_third", rectangle(3, far, [1, 1])),
        ("y1_short", rectangle(1, [-10, 10], [1, 1])),
        ("point0", rectangle(1, [0, 0], [0, 0])),
        ("point12", rectangle(1, [1, 1], [2, 2])),
        ("point_third", rectangle(3, [1, 1], [1, 1])),
        ("centre0", ellipse(1, [0, 0], DISK, 0)),
        ("centre12", ellipse(1, [1, 2], [65, 73, 82], 0)),
        ("centre_third", ellipse(3, [1, 1], DISK, 0)),
        ("x_reversed", rectangle(1, [1, 0], far)),
        ("y_reversed", rectangle(1, far, [1, 0])),
        ("both_reversed", rectangle(1, [1, 0], [1, 0])),
    ];
    against_all(family, &regions, scales)
}

/// Regions that are thin or small, but not of zero width, against all.
fn thin(family: &str, scales: &[i64]) -> Vec<Named> {
    let far = FAR;
    let regions = [
        ("x_1", rectangle(1, [0, 1], far)),
        ("x_hundredth", rectangle(100, [33, 34], far)),
        ("y_1", rectangle(1, far, [0, 1])),
        ("y_hundredth", rectangle(100, far, [33, 34])),
        ("square_1", rectangle(1, [0, 1], [0, 1])),
        ("square_hundredth", rectangle(100, [33, 34], [71, 72])),
        ("square_off", rectangle(100, [9_998, 9_999], [-9_999, -9_998])),
        ("disk_1", ellipse(1, [0, 0], DISK, 1)),
        ("disk_hundredth", ellipse(100, [3, 5], DISK, 1)),
        ("disk_thousandth", ellipse(100, [3, 5], [100, 0, 100], 1)),
    ];
    against_all(family, &regions, scales)
}

/// Each region on either side against the rectangle of ±10,000.
fn against_all(family: &str, regions: &[(&str, Region)], scales: &[i64]) -> Vec<Named> {
    let all = rectangle(1, FAR, FAR);
    let mut jobs = Vec::new();
    for (name, region) in regions {
        for &k in scales {
            jobs.push(job(format!("{family}-A-{name}-k{k:02}"), k, region, &all));
            jobs.push(job(format!("{family}-B-{name}-k{k:02}"), k, &all, region));
        }
    }
    jobs
}

/// Jobs for the plain question with a proposal and without, off centre so that
/// the first place looked at is no solution.
fn reduction() -> Vec<Named> {
    let jobs = [
        ("yes", 6, 100, 1_000, [[37, 11], [5, 91]], [[86, 77, 69], [78, 82, 87]]),
        ("crossed", 6, 100, 1_000, [[37, -11], [5, 91]], [[65, 73, 82], [66, -74, 83]]),
        ("none", 8, 100, 100, [[37, 11], [5, 91]], [[85, -92, 100], [74, 86, 100]]),
        ("none", 4, 10, 40, [[13, 4], [5, -9]], [[97, 95, 94], [83, 90, 98]]),
    ];
    jobs.iter()
        .map(|&(name, k, n, s, centres, forms)| {
            let [a, b] = [0, 1].map(|i| ellipse(n, centres[i], forms[i], s));
            job(format!("reduction-{name}-k{k:02}"), k, &a, &b)
        })
        .collect()
}
