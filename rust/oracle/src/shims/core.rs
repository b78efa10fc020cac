//! Rules, edge data (none), links and graph (names only), and the solver, which holds a run's limits and what it came to.

pub(crate) mod edge_data {
    use crate::int::point::IntPoint;
    use crate::segm::boolean::ShapeCountBoolean;

    /// Edge data is left out: every method keeps it as it is.
    pub(crate) trait OverlayEdgeData<C = ShapeCountBoolean>: Copy + Send + Sync {
        type Store: Default;

        fn split<I>(self, _at: EdgeDataSplit<I>, _store: &mut Self::Store) -> (Self, Self) {
            (self, self)
        }

        fn merge(both: EdgeDataMerge<C, Self>, _store: &mut Self::Store) -> Self {
            both.lhs_data
        }
    }

    impl<C> OverlayEdgeData<C> for () {
        type Store = ();
    }

    pub(crate) struct EdgeDataSplit<I> {
        pub(crate) a: IntPoint<I>,
        pub(crate) p: IntPoint<I>,
        pub(crate) b: IntPoint<I>,
    }

    pub(crate) struct EdgeDataMerge<C, D> {
        pub(crate) lhs_data: D,
        pub(crate) lhs_count: C,
        pub(crate) rhs_data: D,
        pub(crate) rhs_count: C,
        pub(crate) out_count: C,
    }
}

pub(crate) mod integer {
    use crate::int::number::int::IntNumber;
    use crate::Expiration;

    pub(crate) trait OverlayInt: IntNumber + Expiration {}

    impl OverlayInt for i32 {}
}

pub(crate) mod fill_rule {
    #[derive(Clone, Copy)]
    pub(crate) enum FillRule {
        EvenOdd,
        NonZero,
        Positive,
        Negative,
    }

    impl FillRule {
        /// By document 01's number.
        pub(crate) const ALL: [FillRule; 4] =
            [FillRule::EvenOdd, FillRule::NonZero, FillRule::Positive, FillRule::Negative];
    }
}

pub(crate) mod overlay_rule {
    #[derive(Clone, Copy)]
    pub(crate) enum OverlayRule {
        Subject,
        Clip,
        Intersect,
        Union,
        Difference,
        InverseDifference,
        Xor,
    }

    impl OverlayRule {
        /// By document 01's number.
        pub(crate) const ALL: [OverlayRule; 7] = [
            OverlayRule::Subject,
            OverlayRule::Clip,
            OverlayRule::Intersect,
            OverlayRule::Union,
            OverlayRule::Difference,
            OverlayRule::InverseDifference,
            OverlayRule::Xor,
        ];
    }
}

pub(crate) mod overlay {
    use std::marker::PhantomData;

    #[derive(Default)]
    pub(crate) struct IntOverlayOptions<U>(PhantomData<U>);
}

pub(crate) mod extract {
    pub(crate) struct VisitState {
        pub(crate) is_skipped: bool,
    }

    impl VisitState {
        pub(crate) fn new(is_skipped: bool) -> Self {
            VisitState { is_skipped }
        }
    }
}

pub(crate) mod link {
    use super::extract::VisitState;
    use super::overlay_rule::OverlayRule;
    use crate::segm::segment::SegmentFill;
    use std::marker::PhantomData;

    pub(crate) struct OverlayLink<I, D> {
        pub(crate) fill: SegmentFill,
        kind: PhantomData<(I, D)>,
    }

    impl<I, D> OverlayLink<I, D> {
        pub(crate) fn new(fill: SegmentFill) -> Self {
            OverlayLink { fill, kind: PhantomData }
        }
    }

    pub(crate) trait OverlayLinkFilter {
        fn filter_by_overlay_into(&self, overlay_rule: OverlayRule, buffer: &mut Vec<VisitState>);
    }
}

pub(crate) mod graph {
    use super::link::OverlayLink;
    use super::overlay::IntOverlayOptions;
    use crate::int::number::int::IntNumber;

    pub(crate) struct OverlayNode;

    pub(crate) struct OverlayGraph<'a, I: IntNumber, D> {
        pub(crate) nodes: &'a [OverlayNode],
        pub(crate) links: &'a [OverlayLink<I, D>],
        pub(crate) options: IntOverlayOptions<I::WideUInt>,
    }
}

pub(crate) mod solver {
    use crate::segm::segment::Segment;
    use std::cell::Cell;

    /// A run's limits, and its looks or refusal once they are made.
    pub(crate) struct Solver {
        pub(crate) work_room: usize,
        pub(crate) mark_room: usize,
        pub(crate) scan_room: usize,
        pub(crate) budget: usize,
        /// The crate's own loop instead of document 01's looks.
        is_own_loop: bool,
        looks: Cell<Result<usize, u32>>,
    }

    impl Solver {
        pub(crate) fn new(work_room: usize, mark_room: usize, scan_room: usize, budget: usize) -> Self {
            Solver { work_room, mark_room, scan_room, budget, is_own_loop: false, looks: Cell::new(Ok(0)) }
        }

        /// The crate's own: its loop, and no limits.
        pub(crate) fn own() -> Self {
            let all = usize::MAX;
            Solver { is_own_loop: true, ..Self::new(all, all, all, all) }
        }

        pub(crate) fn finish(&self, looks: Result<usize, u32>) {
            self.looks.set(looks);
        }

        pub(crate) fn looks(&self) -> Result<usize, u32> {
            self.looks.get()
        }

        pub(crate) fn is_parallel_sort_allowed(&self) -> bool {
            false
        }

        pub(crate) fn is_list_split<C, I, D>(&self, _segments: &[Segment<C, I, D>]) -> bool {
            self.is_own_loop
        }

        pub(crate) fn is_fragmentation_required<C, I, D>(&self, _segments: &[Segment<C, I, D>]) -> bool {
            false
        }

        pub(crate) fn is_list_fill<C, I, D>(&self, _segments: &[Segment<C, I, D>]) -> bool {
            true
        }
    }
}
