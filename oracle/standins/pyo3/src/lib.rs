//! In the place of the Python layer: attributes that do nothing, and an error that carries the original's own.

use std::any::Any;

/// Holds the original's `FlowValidationError`.
pub struct PyErr {
    pub value: Box<dyn Any>,
}

pub type PyResult<T> = Result<T, PyErr>;

pub mod exceptions {
    pub struct PyValueError;

    impl PyValueError {
        pub fn new_err<T: 'static>(value: T) -> crate::PyErr {
            crate::PyErr { value: Box::new(value) }
        }
    }
}

pub mod prelude {
    pub use crate::{PyErr, PyResult};
    pub use pyo3_macros::{pyclass, pyfunction};
}
