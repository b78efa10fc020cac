//! Segments with counts. `merge` is the crate's file.

include!(concat!(env!("OUT_DIR"), "/merge.rs"));

pub(crate) mod winding {
    pub(crate) trait WindingCount: Copy + Send + Sync {
        fn new(subj: i32, clip: i32) -> Self;
        fn is_not_empty(&self) -> bool;
        fn add(self, count: Self) -> Self;
        fn invert(self) -> Self;
        /// Outside ±(2^31 - 1).
        fn is_far(&self) -> bool;
    }
}

pub(crate) mod boolean {
    use super::winding::WindingCount;

    /// The two counts, in 64 bits. Narrow ones wrap at 32 bits, as the crate's own do, and make narrow what they are added to.
    #[derive(Clone, Copy, Debug)]
    pub(crate) struct ShapeCountBoolean {
        pub(crate) subj: i64,
        pub(crate) clip: i64,
        narrow: bool,
    }

    impl ShapeCountBoolean {
        pub(crate) fn with_width(subj: i32, clip: i32, narrow: bool) -> Self {
            ShapeCountBoolean { subj: subj.into(), clip: clip.into(), narrow }
        }

        fn of(subj: i64, clip: i64, narrow: bool) -> Self {
            if narrow {
                Self::with_width(subj as i32, clip as i32, true)
            } else {
                ShapeCountBoolean { subj, clip, narrow }
            }
        }
    }

    impl WindingCount for ShapeCountBoolean {
        fn new(subj: i32, clip: i32) -> Self {
            Self::with_width(subj, clip, false)
        }

        fn is_not_empty(&self) -> bool {
            self.subj != 0 || self.clip != 0
        }

        fn add(self, count: Self) -> Self {
            Self::of(self.subj + count.subj, self.clip + count.clip, self.narrow || count.narrow)
        }

        fn invert(self) -> Self {
            Self::of(-self.subj, -self.clip, self.narrow)
        }

        fn is_far(&self) -> bool {
            let limit = i64::from(i32::MAX);
            !self.narrow && (self.subj.abs() > limit || self.clip.abs() > limit)
        }
    }
}

pub(crate) mod segment {
    use super::winding::WindingCount;
    use crate::core::edge_data::OverlayEdgeData;
    use crate::geom::x_segment::XSegment;
    use crate::int::number::int::IntNumber;
    use crate::int::point::IntPoint;

    pub(crate) type SegmentFill = u8;

    pub(crate) const SUBJ_TOP: SegmentFill = 1;
    pub(crate) const SUBJ_BOTTOM: SegmentFill = 2;
    pub(crate) const CLIP_TOP: SegmentFill = 4;
    pub(crate) const CLIP_BOTTOM: SegmentFill = 8;
    pub(crate) const SUBJ_BOTH: SegmentFill = SUBJ_TOP + SUBJ_BOTTOM;
    pub(crate) const CLIP_BOTH: SegmentFill = CLIP_TOP + CLIP_BOTTOM;
    pub(crate) const BOTH_TOP: SegmentFill = SUBJ_TOP + CLIP_TOP;
    pub(crate) const BOTH_BOTTOM: SegmentFill = SUBJ_BOTTOM + CLIP_BOTTOM;
    pub(crate) const ALL: SegmentFill = BOTH_TOP + BOTH_BOTTOM;

    #[derive(Clone, Copy, Debug)]
    pub(crate) struct Segment<C, I, D> {
        pub(crate) x_segment: XSegment<I>,
        pub(crate) count: C,
        pub(crate) data: D,
    }

    impl<C: WindingCount, I: IntNumber, D: OverlayEdgeData<C>> Segment<C, I, D> {
        /// From a to b, turned with negated counts where a is the later end.
        pub(crate) fn create_and_validate_with_data(
            a: IntPoint<I>,
            b: IntPoint<I>,
            count: C,
            data: D,
            _store: &mut D::Store,
        ) -> Self {
            assert!(a != b, "no piece is a point");
            let (x_segment, count) =
                if a < b { (XSegment { a, b }, count) } else { (XSegment { a: b, b: a }, count.invert()) };
            Segment { x_segment, count, data }
        }
    }
}

pub(crate) mod sort {
    use super::segment::Segment;
    use crate::int::number::int::IntNumber;

    pub(crate) trait ShapeSegmentsSort {
        fn sort_by_ab(&mut self, parallel: bool);
    }

    impl<C, I: IntNumber, D> ShapeSegmentsSort for Vec<Segment<C, I, D>> {
        fn sort_by_ab(&mut self, _parallel: bool) {
            self.sort_by_key(|s| s.x_segment);
        }
    }
}
