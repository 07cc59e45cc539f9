//! Stands for `nalgebra`: the covariance matrix is out of scope and never called.

use std::marker::PhantomData;
use std::ops::{Index, IndexMut};

pub struct DMatrix<T>(PhantomData<T>);

impl<T> DMatrix<T> {
    pub fn zeros(_rows: usize, _cols: usize) -> Self {
        unimplemented!()
    }

    pub fn nrows(&self) -> usize {
        unimplemented!()
    }

    pub fn ncols(&self) -> usize {
        unimplemented!()
    }

    pub fn as_slice(&self) -> &[T] {
        unimplemented!()
    }
}

impl<T> Index<(usize, usize)> for DMatrix<T> {
    type Output = T;

    fn index(&self, _place: (usize, usize)) -> &T {
        unimplemented!()
    }
}

impl<T> IndexMut<(usize, usize)> for DMatrix<T> {
    fn index_mut(&mut self, _place: (usize, usize)) -> &mut T {
        unimplemented!()
    }
}
