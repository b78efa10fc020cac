//! A plain scan list, in place of i_tree.

/// When a key ends.
pub(crate) trait Expiration: Copy + Ord {}

impl Expiration for i32 {}

pub(crate) trait ExpiredKey<E> {
    fn expiration(&self) -> E;
}

pub(crate) mod key {
    pub(crate) mod exp {
        use std::cmp::Ordering;

        pub(crate) trait KeyExpCollection<K, E, V> {
            fn insert(&mut self, key: K, value: V, time: E);

            /// The value of the last key that is not greater, by a test that says how a key stands to the place asked for.
            fn first_less_or_equal_by(&mut self, time: E, default: V, test: impl Fn(K) -> Ordering) -> V;
        }
    }

    pub(crate) mod list {
        use super::super::{Expiration, ExpiredKey};
        use super::exp::KeyExpCollection;
        use std::cmp::Ordering;
        use std::marker::PhantomData;

        /// Keys in order, each with its value. A key is dropped once its time has come.
        pub(crate) struct KeyExpList<K, E, V> {
            entries: Vec<(K, V)>,
            times: PhantomData<E>,
        }

        impl<K: ExpiredKey<E>, E: Expiration, V> KeyExpList<K, E, V> {
            pub(crate) fn new(capacity: usize) -> Self {
                KeyExpList { entries: Vec::with_capacity(capacity), times: PhantomData }
            }

            pub(crate) fn clear(&mut self) {
                self.entries.clear();
            }

            pub(crate) fn reserve_capacity(&mut self, capacity: usize) {
                self.entries.reserve(capacity);
            }

            fn drop_ended(&mut self, time: E) {
                self.entries.retain(|(key, _)| key.expiration() > time);
            }
        }

        impl<K: ExpiredKey<E> + Ord + Copy, E: Expiration, V: Copy> KeyExpCollection<K, E, V> for KeyExpList<K, E, V> {
            fn insert(&mut self, key: K, value: V, time: E) {
                self.drop_ended(time);
                let place = self.entries.iter().position(|(other, _)| *other > key).unwrap_or(self.entries.len());
                self.entries.insert(place, (key, value));
            }

            fn first_less_or_equal_by(&mut self, time: E, default: V, test: impl Fn(K) -> Ordering) -> V {
                self.drop_ended(time);
                let mut last = self.entries.iter().rev();
                last.find(|(key, _)| test(*key) != Ordering::Greater).map_or(default, |(_, value)| *value)
            }
        }
    }

    pub(crate) mod tree {
        pub(crate) use super::list::KeyExpList as KeyExpTree;
    }
}
