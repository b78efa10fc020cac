pub(crate) mod log {
    /// A size to begin a list with; it changes no answer.
    pub(crate) trait Int {
        fn log2_sqrt(&self) -> usize;
    }

    impl Int for usize {
        fn log2_sqrt(&self) -> usize {
            self.isqrt()
        }
    }
}
