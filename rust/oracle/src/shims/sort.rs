//! The bound that i_key_sort asks of a sorting key; our sorts are the standard library's.

pub(crate) mod key {
    pub(crate) trait SortKey {}

    impl SortKey for i32 {}
}
