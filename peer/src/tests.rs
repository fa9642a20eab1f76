//! The points worked by hand, and the loops against a plain cube.

use std::ops::ControlFlow;

use crate::bench;
use crate::entry;
use crate::files;
use crate::generate::Generator;
use crate::job::{self, Job, Region, Shape};
use crate::member::{Membership, Point};
use crate::pack;
use crate::root2::{floor_root2, sign};
use crate::t_count;
use crate::walk::Walk;

fn solutions(job: &Job) -> Vec<Point> {
    let mut found = Vec::new();
    Walk::new(job).run(|v| {
        found.push(v);
        ControlFlow::Continue(())
    });
    found
}

fn rectangle(n: i64, [xl, xh]: [i64; 2], [yl, yh]: [i64; 2]) -> Region {
    Region { n, shape: Shape::Rectangle { xl, xh, yl, yh } }
}

fn point(a: i64, b: i64, c: i64, d: i64) -> Point {
    Point { a, b, c, d }
}

#[test]
fn signs() {
    assert_eq!([sign(-7, 5), sign(-99, 70), sign(0, 0)], [1, -1, 0]);
    let least = i64::MIN.into();
    assert_eq!(sign(least, 6_521_908_912_666_391_106), -1);
    assert_eq!(sign(least, 6_521_908_912_666_391_107), 1);
}

#[test]
fn wide_signs() {
    // Powers of 1 + √2, of which √2 times the second part comes ever closer
    // to the first, now from above and now from below.
    let (mut p, mut q) = (1_i128, 1_i128);
    for j in 1..95 {
        let expected = if j % 2 == 0 { 1 } else { -1 };
        assert_eq!(sign(p, -q), expected);
        assert_eq!(sign(-p, q), -expected);
        (p, q) = (p + 2 * q, p + q);
    }
}

#[test]
fn floors() {
    assert_eq!([-2, -1, 0, 1, 2, 70].map(floor_root2), [-3, -2, 0, 1, 2, 98]);
}

#[test]
fn rectangles() {
    let job = |k, a, b| Job { k, all: true, a, b };
    let minus = rectangle(1, [-2, -1], [0, 0]);
    let plus = rectangle(1, [1, 2], [0, 0]);
    assert_eq!(solutions(&job(0, rectangle(12, [16, 17], [0, 0]), minus)), [point(-1, 0, 1, 0)]);
    assert_eq!(solutions(&job(0, rectangle(5, [6, 7], [0, 0]), minus)), []);
    assert_eq!(solutions(&job(1, plus, minus)), [point(0, 0, 0, 2)]);
    assert_eq!(solutions(&job(1, plus, plus)), [point(-2, 0, 2, 0), point(-1, 0, 1, 0)]);
}

#[test]
fn unit_disks() {
    let disk = Region { n: 1, shape: Shape::Ellipse { cx: 0, cy: 0, p: 1, q: 0, r: 1, s: 1 } };
    let counts = |all| [0, 1, 2].map(|k| solutions(&Job { k, all, a: disk, b: disk }).len());
    assert_eq!(counts(true), [9, 17, 57]);
    // New ones: what the scale before did not have.
    assert_eq!(counts(false), [9, 17 - 9, 57 - 17]);
}

#[test]
fn shortest_patterns() {
    let disk = Region { n: 1, shape: Shape::Ellipse { cx: 0, cy: 0, p: 1, q: 0, r: 1, s: 1 } };
    // x + y at least 1, and twice the squares at most 2.
    let slice = Region { n: 1, shape: Shape::Slice { zx: 1, zy: 1, w: 1 } };
    let job = |k, a| Job { k, all: true, a, b: disk };
    let found = entry::shortest(&job(3, disk));
    assert_eq!(found, Some((0, point(-1, 0, 0, 0), point(0, 0, 0, 0))));
    let found = entry::shortest(&job(0, slice));
    assert_eq!(found, Some((0, point(0, 0, 0, 1), point(0, 0, 0, 0))));
    assert_eq!(entry::shortest(&job(20, rectangle(1, [2, 9], [-9, 9]))), None);
}

#[test]
fn selected_are_those_that_root2_does_not_divide() {
    let mut generator = Generator::new(2);
    for _ in 0..200 {
        let Ok(job) = job::read(&generator.job().1) else { continue };
        let all = solutions(&Job { all: true, ..job });
        let is_new = |v: &Point| job.k == 0 || (v.a - v.c) % 2 != 0 || (v.b - v.d) % 2 != 0;
        let new: Vec<Point> = all.into_iter().filter(is_new).collect();
        assert_eq!(solutions(&Job { all: false, ..job }), new);
    }
}

#[test]
fn operators() {
    assert_eq!(job::check_operator(&[0, 0, 0, 1, -1, 1, 1, 0]), Ok(()));
    assert_eq!(job::check_operator(&[0, 0, 0, 1, 0, 1, 0, 2]), Ok(()));
    assert_eq!(job::check_operator(&[0, 0, 0, 1, 0, 1, 0, 1]), Err(6));
    assert_eq!(job::check_operator(&[0, 0, 0, 2, 0, 2, 0, 0]), Err(7));
    assert_eq!(job::check_operator(&[-1, 0, 1, 1, 1, 1, 1, 0]), Err(7));
}

/// At least the greatest |x| or |y| of a region.
fn extent(region: &Region) -> i64 {
    let reach = match region.shape {
        Shape::Rectangle { xl, xh, yl, yh } => [xl, xh, yl, yh].map(i64::abs).into_iter().max(),
        Shape::Ellipse { cx, cy, p, q, r, s } => {
            Some(cx.abs().max(cy.abs()) + (s * p.max(r) / (p * r - q * q)).isqrt() + 1)
        }
        Shape::Slice { .. } => Some(region.n),
    };
    reach.unwrap_or(0) / region.n + 1
}

#[test]
fn loops_against_a_cube() {
    let mut generator = Generator::new(1);
    let mut compared = 0;
    while compared < 100 {
        let (name, bytes) = generator.job();
        let Ok(job) = job::read(&bytes) else { continue };
        // Each coordinate is within √2^(k+1)·(the extents' sum)/2.
        let m = ((extent(&job.a) + extent(&job.b)) << (job.k + 1).div_ceil(2)) / 2 + 1;
        if m > 7 {
            continue;
        }
        let membership = Membership::new(&job);
        let side = -m..=m;
        let mut expected = Vec::new();
        for a in side.clone() {
            for b in side.clone() {
                for c in side.clone() {
                    let line = side.clone().map(|d| point(a, b, c, d));
                    let listed = |v: &Point| membership.holds(*v) && membership.selects(*v);
                    expected.extend(line.filter(listed));
                }
            }
        }
        assert_eq!(solutions(&job), expected, "{name}: {job:?}");
        compared += 1;
    }
}

#[test]
fn packed() {
    let text = b"# unit disks\nscale 0  # the scale\n\nellipse 1 0 0 1 0 1 1\ndisk 1\n";
    let ellipse = [3, 1, 0, 0, 0, 0, 0, 0, 0, 0, 0, 1, 0, 0, 0, 1, 0, 1, 0, 0, 0];
    assert_eq!(pack::pack(text), [&[1, 0], &ellipse[..], &ellipse[..]].concat());
    assert_eq!(pack::pack(b"selection all\nselection 0"), [6, 1, 6, 0]);
    assert_eq!(pack::pack(b"scale 0\nscale 0 1\n"), b"bad line 2\n");
    assert_eq!(pack::pack(b"scale 256"), b"bad line 1\n");
}

#[test]
fn files() {
    let file = files::qasm(b"of U\nword HTWS\n");
    assert_eq!(
        file,
        b"OPENQASM 2.0;\ninclude \"qelib1.inc\";\nqreg q[1];\ns q[0];\nt q[0];\nh q[0];\n"
    );
    assert_eq!(files::unqasm(&file), b"HTS\n");
    assert_eq!(files::unqasm(&files::qasm(b"-\n")), b"-\n");
    assert_eq!(files::qasm(b"word HX"), b"refused 15 at 5\n");
    assert_eq!(files::unqasm(b"h q[0];\n"), b"refused 17 at 0\n");
}

#[test]
fn bench_jobs_are_accepted() {
    let jobs = bench::jobs();
    assert!(jobs.iter().all(|(_, records)| job::read(&records.concat()).is_ok()));
    let mut names: Vec<&String> = jobs.iter().map(|(name, _)| name).collect();
    names.sort();
    names.dedup();
    assert_eq!(names.len(), jobs.len());
}

#[test]
fn words() {
    let report = t_count::report(6, 30, 1, None).unwrap();
    let lines: Vec<&str> = report.lines().collect();
    assert_eq!(lines[0], "words: 5461, matrices: 315");
    assert!(lines[1].ends_with("158 matrices, with fewer T than m: 0"));
    // HTH is one of the 42.
    assert!(lines[2].ends_with("157 matrices, with m - 1 T: 42, with fewer: 0"));
    assert!(lines[3].ends_with("with fewer T: 0"));
}
