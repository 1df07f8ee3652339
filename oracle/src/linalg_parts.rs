
/// Appended to the original text, whose `LU` keeps its fields private: reads and builds them.
pub mod parts {
    use super::*;

    impl<T: Scalar, D: Dim> LU<T, D>
    where
        DefaultAllocator: Allocator<D, D> + Allocator<D>,
    {
        /// From factors, order and swap count, be they LU's own or not.
        pub fn from_parts(a: OMatrix<T, D, D>, p: OVector<usize, D>, p_count: usize) -> Self {
            LU { a, p, p_count }
        }

        /// The factors, the order and the swap count.
        pub fn parts(&self) -> (&OMatrix<T, D, D>, &OVector<usize, D>, usize) {
            (&self.a, &self.p, self.p_count)
        }
    }
}
