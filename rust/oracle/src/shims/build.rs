//! Masks and kept edges. `boolean` and `sweep` are the crate's files.

include!(concat!(env!("OUT_DIR"), "/boolean.rs"));
include!(concat!(env!("OUT_DIR"), "/sweep.rs"));

pub(crate) mod builder {
    use super::sweep::{FillHandler, FillStrategy, SweepRunner};
    use crate::core::edge_data::OverlayEdgeData;
    use crate::core::link::OverlayLink;
    use crate::core::solver::Solver;
    use crate::int::number::int::IntNumber;
    use crate::segm::segment::{Segment, SegmentFill};
    use crate::segm::winding::WindingCount;
    use crate::Expiration;
    use std::ops::ControlFlow;

    pub(crate) trait InclusionFilterStrategy {
        fn is_included(fill: SegmentFill) -> bool;
    }

    /// Instead of a graph it makes each segment's mask, and says which are kept.
    pub(crate) struct GraphBuilder<C, N, I: IntNumber + Expiration, D> {
        pub(crate) masks: Vec<SegmentFill>,
        pub(crate) kept: Vec<bool>,
        pub(crate) is_crowded: bool,
        pub(super) links: Vec<OverlayLink<I, D>>,
        pub(super) nodes: Vec<N>,
        sweep_runner: SweepRunner<C, I>,
    }

    impl<C: WindingCount, N, I: IntNumber + Expiration, D: OverlayEdgeData<C>> GraphBuilder<C, N, I, D> {
        pub(crate) fn new() -> Self {
            GraphBuilder {
                masks: Vec::new(),
                kept: Vec::new(),
                is_crowded: false,
                links: Vec::new(),
                nodes: Vec::new(),
                sweep_runner: SweepRunner::new(),
            }
        }

        pub(super) fn build_fills_with_strategy<F: FillStrategy<C>>(
            &mut self,
            solver: &Solver,
            segments: &[Segment<C, I, D>],
        ) {
            self.masks = vec![0; segments.len()];
            let handler = Masks { masks: &mut self.masks, ends: Vec::new(), room: solver.scan_room };
            self.is_crowded = self.sweep_runner.run::<D, F, _>(solver, segments, handler);
        }

        pub(super) fn build_links_by_filter<F: InclusionFilterStrategy>(&mut self, _segments: &[Segment<C, I, D>]) {
            self.kept = self.masks.iter().map(|mask| F::is_included(*mask)).collect();
        }

        pub(super) fn build_links_all(&mut self, _segments: &[Segment<C, I, D>]) {
            self.kept = vec![true; self.masks.len()];
        }

        pub(super) fn build_nodes_and_connect_links(&mut self, _solver: &Solver) {}
    }

    /// Stores the masks, and breaks the sweep off once more segments are live than there is room for.
    struct Masks<'a, I> {
        masks: &'a mut [SegmentFill],
        ends: Vec<I>,
        room: usize,
    }

    impl<C, I: IntNumber, D> FillHandler<C, I, D> for Masks<'_, I> {
        type Output = bool;

        fn handle(&mut self, index: usize, segment: &Segment<C, I, D>, fill: SegmentFill) -> ControlFlow<bool> {
            let x_segment = segment.x_segment;
            self.masks[index] = fill;
            self.ends.retain(|end| *end > x_segment.a.x);
            if x_segment.is_not_vertical() {
                self.ends.push(x_segment.b.x);
            }
            if self.ends.len() > self.room {
                ControlFlow::Break(true)
            } else {
                ControlFlow::Continue(())
            }
        }

        fn finalize(self) -> bool {
            false
        }
    }
}
