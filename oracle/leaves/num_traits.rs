//! Stands for the crate of that name, of which `weekday.rs` implements one trait.
pub trait FromPrimitive: Sized {
    fn from_i64(n: i64) -> Option<Self>;
    fn from_u64(n: u64) -> Option<Self>;
}
