//! A face for C on nalgebra's own sparse module, for the benchmark: each function is one call of the original.
#![allow(dead_code, unused)]
pub mod base;
pub use base::*;
pub mod sparse;
use crate::sparse::{CsCholesky, CsMatrix, CsVecStorage, CsVector};

type M = CsMatrix<f64, Dyn, Dyn>;
type V = CsVector<f64, Dyn>;
type Cholesky = CsCholesky<f64, Dyn>;
type Dense = OVector<f64, Dyn>;

unsafe fn list<'a, T>(p: *const T, n: usize) -> &'a [T] {
    unsafe { std::slice::from_raw_parts(p, n) }
}
fn boxed<T>(x: T) -> *mut T {
    Box::into_raw(Box::new(x))
}

#[unsafe(no_mangle)]
pub unsafe extern "C" fn rust_matrix(n: usize, p: *const u32, i: *const u32, v: *const f64, count: usize) -> *mut M {
    let (p, i, v) = unsafe { (list(p, n), list(i, count), list(v, count)) };
    boxed(M::from_data(CsVecStorage {
        shape: (Dyn(n), Dyn(n)),
        p: OVector::from_flat(Dyn(n), Const::<1>, p.iter().map(|x| *x as usize).collect()),
        i: i.iter().map(|x| *x as usize).collect(),
        vals: v.to_vec(),
    }))
}
#[unsafe(no_mangle)]
pub unsafe extern "C" fn rust_vector(n: usize, row: usize, value: f64) -> *mut V {
    boxed(V::from_data(CsVecStorage {
        shape: (Dyn(n), Const::<1>),
        p: OVector::from_flat(Const::<1>, Const::<1>, vec![0]),
        i: vec![row],
        vals: vec![value],
    }))
}
#[unsafe(no_mangle)]
pub unsafe extern "C" fn rust_dense(n: usize) -> *mut Dense {
    boxed(OVector::from_flat(Dyn(n), Const::<1>, vec![0.0; n]))
}
#[unsafe(no_mangle)]
pub unsafe extern "C" fn rust_values(b: *mut Dense) -> *mut f64 {
    unsafe { (*b).as_mut_slice().as_mut_ptr() }
}
#[unsafe(no_mangle)]
pub unsafe extern "C" fn rust_free_matrix(m: *mut M) {
    drop(unsafe { Box::from_raw(m) })
}
#[unsafe(no_mangle)]
pub unsafe extern "C" fn rust_free_vector(m: *mut V) {
    drop(unsafe { Box::from_raw(m) })
}
#[unsafe(no_mangle)]
pub unsafe extern "C" fn rust_free_cholesky(c: *mut Cholesky) {
    drop(unsafe { Box::from_raw(c) })
}
#[unsafe(no_mangle)]
pub unsafe extern "C" fn rust_analyse(m: *const M) -> *mut Cholesky {
    boxed(Cholesky::new_symbolic(unsafe { &*m }))
}
#[unsafe(no_mangle)]
pub unsafe extern "C" fn rust_left(c: *mut Cholesky, v: *const f64, count: usize) -> bool {
    unsafe { (*c).decompose_left_looking(list(v, count)) }
}
#[unsafe(no_mangle)]
pub unsafe extern "C" fn rust_up(c: *mut Cholesky, v: *const f64, count: usize) -> bool {
    unsafe { (*c).decompose_up_looking(list(v, count)) }
}
#[unsafe(no_mangle)]
pub unsafe extern "C" fn rust_l(c: *const Cholesky) -> *const M {
    unsafe { (*c).l().unwrap() }
}
#[unsafe(no_mangle)]
pub unsafe extern "C" fn rust_matrix_values(m: *const M) -> *const f64 {
    unsafe { (*m).data.vals.as_ptr() }
}
#[unsafe(no_mangle)]
pub unsafe extern "C" fn rust_forward(l: *const M, b: *mut Dense) -> bool {
    unsafe { (*l).solve_lower_triangular_mut(&mut *b) }
}
#[unsafe(no_mangle)]
pub unsafe extern "C" fn rust_transposed(l: *const M, b: *mut Dense) -> bool {
    unsafe { (*l).tr_solve_lower_triangular_mut(&mut *b) }
}
#[unsafe(no_mangle)]
pub unsafe extern "C" fn rust_sparse(l: *const M, b: *const V) -> *mut V {
    boxed(unsafe { (*l).solve_lower_triangular_cs(&*b) }.unwrap())
}
#[unsafe(no_mangle)]
pub unsafe extern "C" fn rust_product(a: *const M, b: *const M) -> *mut M {
    boxed(unsafe { &*a * &*b })
}
#[unsafe(no_mangle)]
pub unsafe extern "C" fn rust_sum(a: *const M, b: *const M) -> *mut M {
    boxed(unsafe { &*a + &*b })
}
#[unsafe(no_mangle)]
pub unsafe extern "C" fn rust_transpose(a: *const M) -> *mut M {
    boxed(unsafe { (*a).transpose() })
}
#[unsafe(no_mangle)]
pub unsafe extern "C" fn rust_triplet(n: usize, i: *const usize, j: *const usize, v: *const f64, count: usize) -> *mut M {
    unsafe { boxed(M::from_triplet(n, n, list(i, count), list(j, count), list(v, count))) }
}
#[unsafe(no_mangle)]
pub unsafe extern "C" fn rust_roots(x: *const f64, y: *mut f64, n: usize) {
    let (x, y) = unsafe { (list(x, n), std::slice::from_raw_parts_mut(y, n)) };
    for k in 0..n {
        y[k] = RealField::sqrt(x[k]);
    }
}
