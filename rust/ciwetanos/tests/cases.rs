//! Each answer through the wrapper, worked out by hand from document 01, and the areas of `examples/` at the root.

use ciwetanos::text::{answer, Area};
use ciwetanos::{cross, outline, overlay, raw, FillRule, Kind, OverlayRule, Refusal, Segment, Settings};
use std::fs;
use std::path::Path;

const EDGE: i32 = 1 << 30;

fn by(budget: u32) -> Settings {
    Settings { fill: FillRule::NonZero, rule: OverlayRule::Intersect, budget }
}

fn squares() -> Vec<Segment> {
    let square = |u, v, s, c| outline(&[(u, u), (v, u), (v, v), (u, v)], s, c);
    [square(0, 4, 1, 0), square(2, 6, 0, 1)].concat()
}

/// Document 01's printed run.
const PRINTED: &str = "0 12 2
0 0 0 4 -1 0 2
0 0 4 0 1 0 1
0 4 2 4 -1 0 2
2 2 2 4 0 -1 27
2 2 4 2 0 1 23
2 4 2 6 0 -1 8
2 4 4 4 -1 0 30
2 6 6 6 0 -1 8
4 0 4 2 1 0 1
4 2 4 4 1 0 29
4 2 6 2 0 1 4
6 2 6 6 0 1 4
";

#[test]
fn the_printed_run() {
    assert_eq!(answer(&overlay(&squares(), by(2))), PRINTED);
    assert_eq!(overlay(&[], by(1)).unwrap().looks, 0);
}

/// Refusals that can be met with lists of the largest size.
#[test]
fn refusals() {
    let triangle = |size: i32| outline(&[(0, 0), (size, 0), (0, size)], 1, 0);
    let with = |change: fn(&mut Segment)| {
        let mut segments = triangle(9);
        change(&mut segments[0]);
        overlay(&segments, by(64)).unwrap_err()
    };
    let many = vec![triangle(9); 683].concat();
    assert_eq!(overlay(&many, by(64)), Err(Refusal::Short));
    assert!(overlay(&many[..2046], by(64)).is_ok());
    assert_eq!(overlay(&triangle(9), by(0)), Err(Refusal::BadSettings));
    assert_eq!(overlay(&triangle(9), by(65)), Err(Refusal::BadSettings));
    assert_eq!(overlay(&triangle(EDGE), by(64)), Err(Refusal::OffGrid));
    assert!(overlay(&triangle(EDGE - 1), by(64)).is_ok());
    assert_eq!(with(|s| s.b = s.a), Refusal::NoLength);
    assert_eq!(with(|s| s.clip = i32::MIN), Refusal::BadCount);
    assert_eq!(with(|s| s.subject = 2), Refusal::Open);
    assert_eq!(overlay(&squares(), by(1)), Err(Refusal::Unsettled));
    let heavy = |count| outline(&[(0, 0), (9, 0), (0, 9)], count, 0);
    assert_eq!(overlay(&[heavy(i32::MAX), heavy(1)].concat(), by(64)), Err(Refusal::TooBig));
    assert!(overlay(&[heavy(i32::MAX - 1), heavy(1)].concat(), by(64)).is_ok());
}

/// Refusals of small lists, as document 01 gives them for the printed run; every list is then zero.
#[test]
fn refusals_of_small_lists() {
    let input: Vec<i32> = squares().iter().flat_map(|s| [s.a.0, s.a.1, s.b.0, s.b.1, s.subject, s.clip]).collect();
    for (segments, marks, scan, budget, expected) in
        [(12, 4, 4, 2, 0), (12, 4, 4, 1, 10), (12, 3, 4, 2, 7), (11, 4, 4, 2, 8), (12, 4, 3, 2, 11)]
    {
        let mut lists = raw::Lists::with_room(segments, marks, scan);
        lists.work.fill(7);
        let report = lists.overlay(&input, 8, 1, 2, budget);
        assert_eq!(report.answer, expected);
        if expected != 0 {
            assert_eq!((report.segments, report.looks), (0, 0));
            assert_eq!(lists, raw::Lists::with_room(segments, marks, scan));
        }
    }
}

#[test]
fn every_refusal_says_what_to_mend() {
    for (place, refusal) in Refusal::ALL.into_iter().enumerate() {
        assert_eq!(refusal.number() as usize, place + 1);
        assert_eq!(Refusal::of(refusal.number().into()), Some(refusal));
        assert!(refusal.to_string().contains(": "), "{refusal}");
    }
    assert_eq!(Refusal::of(0), None);
}

/// Crossings worked by hand in document 01.
#[test]
fn pairs() {
    let found = |t, o| cross(t, o).unwrap().map(|c| (c.kind, c.point, c.rounded));
    assert_eq!(found([(0, 0), (10, 10)], [(0, 10), (10, 0)]), Some((Kind::Pure, (5, 5), false)));
    assert_eq!(found([(0, 9), (9, 0)], [(0, 0), (9, 9)]), Some((Kind::Pure, (5, 4), true)));
    assert_eq!(found([(0, 0), (0, 10)], [(-3, 4), (6, 6)]), Some((Kind::Pure, (0, 4), true)));
    assert_eq!(found([(-1, 0), (1, 0)], [(0, -1), (1, 3)]), Some((Kind::TargetEnd, (1, 0), true)));
    assert_eq!(found([(0, 0), (4, 0)], [(2, 0), (6, 0)]), Some((Kind::Overlay(6), (0, 0), false)));
    assert_eq!(found([(0, 0), (4, 0)], [(4, 0), (6, 0)]), Some((Kind::Overlay(0), (0, 0), false)));
    assert_eq!(found([(0, 0), (4, 0)], [(2, 0), (3, 5)]), Some((Kind::OtherEnd, (2, 0), false)));
    assert_eq!(found([(0, 0), (4, 0)], [(4, 0), (6, 5)]), None);
    assert_eq!(cross([(0, 0), (EDGE, 0)], [(1, 1), (1, 1)]), Err(Refusal::OffGrid));
    assert_eq!(cross([(0, 0), (EDGE - 1, 0)], [(1, 1), (1, 1)]), Err(Refusal::NoLength));
    assert_eq!(raw::cross(&[0; 7]).answer, 1);
    assert_eq!(raw::cross(&[0; 9]).answer, 1);
}

/// Each NAME.txt of `examples/` is answered as NAME.expected says.
#[test]
fn areas() {
    let folder = Path::new(env!("CARGO_MANIFEST_DIR")).join("../../examples");
    let mut tried = 0;
    for entry in fs::read_dir(&folder).expect("examples/ at the root") {
        let path = entry.unwrap().path();
        if path.extension().is_some_and(|e| e == "txt") {
            let area: Area = fs::read_to_string(&path).unwrap().parse().unwrap();
            let expected = fs::read_to_string(path.with_extension("expected")).unwrap();
            assert_eq!(answer(&overlay(&area.segments, area.settings)), expected, "{}", path.display());
            tried += 1;
        }
    }
    assert!(tried >= 3, "only {tried} areas");
}
