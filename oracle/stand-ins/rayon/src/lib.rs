//! Stand-in for `rayon`: one thread. Only `general_kmeans`, which is outside document 01, calls it.

/// What the Rust imports whole.
pub mod prelude {
    /// Gives slices a `par_iter` that walks them in order.
    pub trait InOrder<T> {
        /// The slice's own iterator.
        fn par_iter(&self) -> std::slice::Iter<'_, T>;
    }

    impl<T> InOrder<T> for [T] {
        fn par_iter(&self) -> std::slice::Iter<'_, T> {
            self.iter()
        }
    }
}
