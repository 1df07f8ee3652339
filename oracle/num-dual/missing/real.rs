//! Stands for the missing `real.rs`: just what `explicit.rs` needs to compile. Never run.

pub struct Real<T> {
    pub re: T,
}

impl<T> Real<T> {
    pub fn from_re(re: T) -> Self {
        Self { re }
    }
}
