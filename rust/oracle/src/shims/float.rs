//! Numbers, points and triangles, in place of i_float: coordinates of 32 bits, products of 64, and 128 for the middle point.

pub(crate) mod int {
    pub(crate) mod number {
        pub(crate) mod int {
            use super::{uint::UIntNumber, wide_int::WideIntNumber};
            use std::fmt::Debug;

            pub(crate) trait IntNumber: Copy + Ord + Debug + Send + Sync {
                type Wide: WideIntNumber<UInt = Self::WideUInt>;
                type WideUInt: UIntNumber;
                const ZERO: Self;
                fn to_wide(self) -> Self::Wide;
                fn from_wide(wide: Self::Wide) -> Self;
            }

            impl IntNumber for i32 {
                type Wide = i64;
                type WideUInt = u64;
                const ZERO: i32 = 0;

                fn to_wide(self) -> i64 {
                    self.into()
                }

                fn from_wide(wide: i64) -> i32 {
                    wide.try_into().expect("a point stays on the grid")
                }
            }
        }

        pub(crate) mod wide_int {
            use super::uint::UIntNumber;
            use std::ops::{Add, BitAnd, Div, Mul, Neg, Sub};

            pub(crate) trait WideIntNumber:
                Copy
                + Ord
                + Add<Output = Self>
                + Sub<Output = Self>
                + Mul<Output = Self>
                + Div<Output = Self>
                + Neg<Output = Self>
                + BitAnd<Output = Self>
            {
                type UInt: UIntNumber;
                const ZERO: Self;
                const ONE: Self;
                const FOUR: Self;
                fn signum(self) -> Self;
                fn unsigned_abs(self) -> Self::UInt;
                fn from_uint(value: Self::UInt) -> Self;
            }

            impl WideIntNumber for i64 {
                type UInt = u64;
                const ZERO: i64 = 0;
                const ONE: i64 = 1;
                const FOUR: i64 = 4;

                fn signum(self) -> i64 {
                    i64::signum(self)
                }

                fn unsigned_abs(self) -> u64 {
                    i64::unsigned_abs(self)
                }

                fn from_uint(value: u64) -> i64 {
                    value.try_into().expect("a quotient fits")
                }
            }
        }

        pub(crate) mod uint {
            use super::product_uint::UIntProduct;

            pub(crate) trait UIntNumber: Copy + Ord + From<u8> {
                type Product: UIntProduct<Self>;
                fn power_of_two(exponent: u32) -> Self;
            }

            impl UIntNumber for u64 {
                type Product = u128;

                fn power_of_two(exponent: u32) -> u64 {
                    1 << exponent
                }
            }
        }

        pub(crate) mod product_uint {
            pub(crate) trait UIntProduct<U> {
                fn multiply(a: U, b: U) -> Self;
                fn divide_with_rounding(self, divisor: U) -> U;
            }

            impl UIntProduct<u64> for u128 {
                fn multiply(a: u64, b: u64) -> u128 {
                    u128::from(a) * u128::from(b)
                }

                /// To nearest, a half up: of sizes, so away from zero.
                fn divide_with_rounding(self, divisor: u64) -> u64 {
                    let d = u128::from(divisor);
                    ((2 * self + d) / (2 * d)).try_into().expect("a quotient fits")
                }
            }
        }
    }

    pub(crate) mod point {
        use super::number::int::IntNumber;
        use super::number::wide_int::WideIntNumber;
        use std::ops::Sub;

        /// Ordered by x, then y.
        #[derive(Clone, Copy, Debug, PartialEq, Eq, PartialOrd, Ord)]
        pub(crate) struct IntPoint<I> {
            pub(crate) x: I,
            pub(crate) y: I,
        }

        /// The way from one point to another.
        #[derive(Clone, Copy)]
        pub(crate) struct Offset<W> {
            x: W,
            y: W,
        }

        impl<W: WideIntNumber> Offset<W> {
            pub(crate) fn dot_product(self, other: Self) -> W {
                self.x * other.x + self.y * other.y
            }

            pub(crate) fn cross_product(self, other: Self) -> W {
                self.x * other.y - self.y * other.x
            }
        }

        impl<I: IntNumber> IntPoint<I> {
            pub(crate) const ZERO: Self = IntPoint { x: I::ZERO, y: I::ZERO };

            pub(crate) fn new(x: I, y: I) -> Self {
                IntPoint { x, y }
            }

            pub(crate) fn sqr_distance(self, other: Self) -> I::WideUInt {
                let way = other - self;
                way.dot_product(way).unsigned_abs()
            }
        }

        impl<I: IntNumber> Sub for IntPoint<I> {
            type Output = Offset<I::Wide>;

            fn sub(self, from: Self) -> Offset<I::Wide> {
                Offset { x: self.x.to_wide() - from.x.to_wide(), y: self.y.to_wide() - from.y.to_wide() }
            }
        }
    }
}

pub(crate) mod triangle {
    use super::int::number::int::IntNumber;
    use super::int::number::wide_int::WideIntNumber;
    use super::int::point::IntPoint;
    use std::cmp::Ordering;

    pub(crate) struct Triangle;

    impl Triangle {
        fn area<I: IntNumber>(p0: IntPoint<I>, p1: IntPoint<I>, p2: IntPoint<I>) -> I::Wide {
            (p1 - p0).cross_product(p2 - p0)
        }

        /// The orientation sign.
        pub(crate) fn clock_direction<I: IntNumber>(p0: IntPoint<I>, p1: IntPoint<I>, p2: IntPoint<I>) -> I::Wide {
            Self::area(p0, p1, p2).signum()
        }

        /// Less where the three run clockwise.
        pub(crate) fn clock_order<I: IntNumber>(p0: IntPoint<I>, p1: IntPoint<I>, p2: IntPoint<I>) -> Ordering {
            Self::area(p0, p1, p2).cmp(&I::Wide::ZERO)
        }

        pub(crate) fn is_line<I: IntNumber>(p0: IntPoint<I>, p1: IntPoint<I>, p2: IntPoint<I>) -> bool {
            Self::area(p0, p1, p2) == I::Wide::ZERO
        }

        pub(crate) fn is_not_line<I: IntNumber>(p0: IntPoint<I>, p1: IntPoint<I>, p2: IntPoint<I>) -> bool {
            !Self::is_line(p0, p1, p2)
        }
    }
}
