//! Stand-in for `serde`: the names that the Rust's bounds and derives mention. Storing an index is
//! outside document 01, so every type has these traits and none of them can do anything.

pub use serde_derive::{Deserialize, Serialize};

/// Bound of the Rust's element types.
pub trait Serialize {}
impl<T: ?Sized> Serialize for T {}

/// Named by the Rust beside its derive macro.
pub trait Deserialize<'de> {}
impl<'de, T: ?Sized> Deserialize<'de> for T {}

/// The module that the Rust takes `DeserializeOwned` from.
pub mod de {
    /// Bound of the Rust's `load`.
    pub trait DeserializeOwned {}
    impl<T: ?Sized> DeserializeOwned for T {}
}
