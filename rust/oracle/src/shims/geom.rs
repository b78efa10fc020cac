//! Segments as the crossing sees them (`XSegment`) and as the scan list orders them (`VSegment`).

pub(crate) mod x_segment {
    use crate::int::number::int::IntNumber;
    use crate::int::point::IntPoint;

    /// Ordered by a, then b.
    #[derive(Clone, Copy, Debug, PartialEq, Eq, PartialOrd, Ord)]
    pub(crate) struct XSegment<I> {
        pub(crate) a: IntPoint<I>,
        pub(crate) b: IntPoint<I>,
    }

    impl<I: IntNumber> XSegment<I> {
        pub(crate) fn is_not_vertical(&self) -> bool {
            self.a.x != self.b.x
        }

        /// The least and the greatest y.
        pub(crate) fn y_range(&self) -> (I, I) {
            (self.a.y.min(self.b.y), self.a.y.max(self.b.y))
        }

        pub(crate) fn is_not_intersect_y_range(&self, range: &(I, I)) -> bool {
            let (low, high) = self.y_range();
            high < range.0 || range.1 < low
        }
    }
}

pub(crate) mod v_segment {
    use super::x_segment::XSegment;
    use crate::int::number::int::IntNumber;
    use crate::int::point::IntPoint;
    use crate::shims::tree::{Expiration, ExpiredKey};
    use crate::triangle::Triangle;
    use std::cmp::Ordering;

    #[derive(Clone, Copy, PartialEq, Eq)]
    pub(crate) struct VSegment<I> {
        a: IntPoint<I>,
        b: IntPoint<I>,
    }

    impl<I: IntNumber> VSegment<I> {
        /// Less where the segment passes under p.
        pub(crate) fn is_under_point_order(&self, p: IntPoint<I>) -> Ordering {
            Triangle::clock_order(self.a, p, self.b)
        }
    }

    /// The lower one first, at the later of their starts; where they meet there, the one of lesser slope.
    impl<I: IntNumber> Ord for VSegment<I> {
        fn cmp(&self, other: &Self) -> Ordering {
            if other.a < self.a {
                return other.cmp(self).reverse();
            }
            self.is_under_point_order(other.a).then(self.is_under_point_order(other.b))
        }
    }

    impl<I: IntNumber> PartialOrd for VSegment<I> {
        fn partial_cmp(&self, other: &Self) -> Option<Ordering> {
            Some(self.cmp(other))
        }
    }

    impl<I: Expiration> ExpiredKey<I> for VSegment<I> {
        fn expiration(&self) -> I {
            self.b.x
        }
    }

    impl<I> From<XSegment<I>> for VSegment<I> {
        fn from(segment: XSegment<I>) -> Self {
            VSegment { a: segment.a, b: segment.b }
        }
    }
}

pub(crate) mod end {
    use crate::int::point::IntPoint;

    pub(crate) struct End<I> {
        pub(crate) index: usize,
        pub(crate) point: IntPoint<I>,
    }
}
