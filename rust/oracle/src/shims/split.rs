//! The looks of document 01, in the place of the crate's outer loops. `cross_solver` and `solver` are the crate's files.

include!(concat!(env!("OUT_DIR"), "/cross_solver.rs"));
include!(concat!(env!("OUT_DIR"), "/solver.rs"));
#[cfg(own_loop)]
include!(concat!(env!("OUT_DIR"), "/solver_list.rs"));

use self::cross_solver::{CrossSolver, CrossType};
use self::line_mark::{LineMark, SortMarkByIndexAndPoint};
use self::snap_radius::SnapRadius;
use self::solver::SplitSolver;
use crate::core::edge_data::OverlayEdgeData;
use crate::core::integer::OverlayInt;
use crate::core::solver::Solver;
use crate::geom::x_segment::XSegment;
use crate::int::point::IntPoint;
use crate::segm::segment::Segment;
use crate::segm::winding::WindingCount;
use crate::{Cross, Kind};

pub(crate) mod line_mark {
    use crate::int::number::int::IntNumber;
    use crate::int::point::IntPoint;

    #[derive(Clone, Copy, PartialEq, Eq, PartialOrd, Ord)]
    pub(crate) struct LineMark<I> {
        pub(crate) index: usize,
        pub(crate) point: IntPoint<I>,
    }

    pub(crate) trait SortMarkByIndexAndPoint<I> {
        fn sort_by_index_and_point(&mut self, parallel: bool, reusable_buffer: &mut Vec<LineMark<I>>);
    }

    impl<I: IntNumber> SortMarkByIndexAndPoint<I> for Vec<LineMark<I>> {
        fn sort_by_index_and_point(&mut self, _parallel: bool, _reusable_buffer: &mut Vec<LineMark<I>>) {
            self.sort();
        }
    }
}

pub(crate) mod snap_radius {
    use crate::core::solver::Solver;
    use crate::int::number::int::IntNumber;
    use crate::int::number::uint::UIntNumber;

    /// The squared radius of the crate's own loop: 1 at first, then doubled look by look up to 2^56.
    pub(crate) struct SnapRadius {
        exponent: u32,
    }

    impl SnapRadius {
        pub(crate) fn increment(&mut self) {
            self.exponent = (self.exponent + 1).min(56);
        }

        pub(crate) fn radius_squared<I: IntNumber>(&self) -> I::WideUInt {
            I::WideUInt::power_of_two(self.exponent)
        }
    }

    impl Solver {
        pub(crate) fn snap_radius(&self) -> SnapRadius {
            SnapRadius { exponent: 0 }
        }
    }
}

/// The squared radius of document 01.
const RADIUS: u8 = 2;

impl<I: OverlayInt> SplitSolver<I> {
    /// Looks until one yields no mark, or a refusal is met.
    fn tree_split<C: WindingCount, D: OverlayEdgeData<C>>(
        &mut self,
        _snap_radius: SnapRadius,
        segments: &mut Vec<Segment<C, I, D>>,
        solver: &Solver,
        store: &mut D::Store,
    ) -> bool {
        let looks = self.looks(segments, solver, store);
        solver.finish(looks);
        true
    }

    /// The number of looks, or the refusal.
    fn looks<C: WindingCount, D: OverlayEdgeData<C>>(
        &mut self,
        segments: &mut Vec<Segment<C, I, D>>,
        solver: &Solver,
        store: &mut D::Store,
    ) -> Result<usize, u32> {
        let mut looks = 0;
        refuse_if(9, segments.iter().any(|s| s.count.is_far()))?;
        while !segments.is_empty() {
            self.look(segments, solver.mark_room)?;
            looks += 1;
            if self.marks.is_empty() {
                break;
            }
            refuse_if(10, looks == solver.budget)?;
            refuse_if(8, segments.len() + self.distinct() > solver.work_room)?;
            self.apply(segments, &mut Vec::new(), solver, store);
            refuse_if(9, segments.iter().any(|s| s.count.is_far()))?;
        }
        Ok(looks)
    }

    /// Every pair i < j; 7 as soon as there are more marks than room.
    pub(crate) fn look<C, D>(&mut self, segments: &[Segment<C, I, D>], room: usize) -> Result<(), u32> {
        self.marks.clear();
        for (i, s) in segments.iter().enumerate() {
            for (j, t) in segments.iter().enumerate().skip(i + 1) {
                Self::cross(i, j, &s.x_segment, &t.x_segment, &mut self.marks, RADIUS.into());
                refuse_if(7, self.marks.len() > room)?;
            }
        }
        Ok(())
    }

    /// How many marks the last look yielded.
    pub(crate) fn marks(&self) -> usize {
        self.marks.len()
    }

    fn distinct(&self) -> usize {
        let mut marks = self.marks.clone();
        marks.sort_by_index_and_point(false, &mut Vec::new());
        marks.dedup();
        marks.len()
    }

    fn fragment_split<C: WindingCount, D: OverlayEdgeData<C>>(
        &mut self,
        _snap_radius: SnapRadius,
        _segments: &mut Vec<Segment<C, I, D>>,
        _solver: &Solver,
        _store: &mut D::Store,
    ) -> bool {
        unreachable!("no solver asks for fragments")
    }

    #[cfg(not(own_loop))]
    fn list_split<C: WindingCount, D: OverlayEdgeData<C>>(
        &mut self,
        _snap_radius: SnapRadius,
        _segments: &mut Vec<Segment<C, I, D>>,
        _solver: &Solver,
        _store: &mut D::Store,
    ) -> bool {
        unreachable!("the crate's own loop was not found")
    }
}

fn refuse_if(number: u32, fault: bool) -> Result<(), u32> {
    if fault {
        Err(number)
    } else {
        Ok(())
    }
}

/// How a pair crosses by the crate, with its marks.
pub(crate) fn cross_pair(target: &XSegment<i32>, other: &XSegment<i32>, radius_squared: u64) -> Option<Cross> {
    let found = CrossSolver::<i32>::cross(target, other, radius_squared)?;
    let kind = kind(&found.cross_type, target, other);
    let mut marks: Vec<LineMark<i32>> = Vec::new();
    let rounded = SplitSolver::<i32>::cross(0, 1, target, other, &mut marks, radius_squared);
    assert_eq!(rounded, found.is_round, "a pair says twice whether it was rounded");
    let marks = marks.iter().map(|mark| (mark.index, mark.point.x, mark.point.y)).collect();
    Some(Cross { kind, point: (found.point.x, found.point.y), rounded, marks })
}

/// How a pair crosses by the crate, at the radius of the looks.
pub(crate) fn crossed(target: &XSegment<i32>, other: &XSegment<i32>) -> Option<(Kind, IntPoint<i32>, bool)> {
    let found = CrossSolver::<i32>::cross(target, other, RADIUS.into())?;
    Some((kind(&found.cross_type, target, other), found.point, found.is_round))
}

fn kind(found: &CrossType, target: &XSegment<i32>, other: &XSegment<i32>) -> Kind {
    match found {
        CrossType::Pure => Kind::Pure,
        CrossType::TargetEnd => Kind::TargetEnd,
        CrossType::OtherEnd => Kind::OtherEnd,
        CrossType::Overlay => Kind::Collinear(CrossSolver::<i32>::collinear(target, other)),
    }
}
