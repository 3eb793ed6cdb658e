//! The serial path: no row count is enough for threads, and a parallel walk is a walk.

pub fn parallel_rows(_rows: usize) -> bool {
    false
}

pub mod rayon {
    pub mod prelude {
        pub trait ParallelSliceMut<T> {
            fn par_iter_mut(&mut self) -> std::slice::IterMut<'_, T>;
        }

        impl<T> ParallelSliceMut<T> for [T] {
            fn par_iter_mut(&mut self) -> std::slice::IterMut<'_, T> {
                self.iter_mut()
            }
        }
    }
}
