//! What the crates use of the kit's std, as plain Rust.
use std::fmt;
pub fn turned() -> u32 {
    static NUMBER: std::sync::OnceLock<u32> = std::sync::OnceLock::new();
    *NUMBER.get_or_init(|| std::env::var("TURNED").ok().and_then(|number| number.parse().ok()).unwrap_or(0))
}
#[derive(Clone, Copy)]
pub struct HostRuntime;
impl HostRuntime {
    pub fn alloc(&self) -> alloc::Global { alloc::Global }
    pub fn println(&self, line: String) -> std::io::Result<()> { println!("{line}"); Ok(()) }
}
pub fn read_to_string(_: &HostRuntime, path: &str) -> std::io::Result<String> { std::fs::read_to_string(path).map(String) }
pub mod alloc {
    #[derive(Clone, Copy, Debug, PartialEq, Eq)]
    pub struct Global;
    #[derive(Clone, Copy, Debug, PartialEq, Eq)]
    pub struct AllocError;
    impl From<AllocError> for std::io::Error {
        fn from(_: AllocError) -> std::io::Error { std::io::ErrorKind::OutOfMemory.into() }
    }
}
pub mod test {
    pub struct Fail;
    impl Fail {
        pub fn new(_: &str) -> Fail { Fail }
    }
    impl<E: std::fmt::Debug> From<E> for Fail {
        fn from(_: E) -> Fail { Fail }
    }
}
pub mod ledger {
    use std::marker::PhantomData;
    pub trait Ledger {}
    pub struct Brand;
    impl Ledger for Brand {}
    pub struct Book<L>(PhantomData<L>);
    pub struct Share<L>(PhantomData<L>);
    pub struct Blank;
    impl Blank {
        pub fn new(_: u64) -> Blank { Blank }
        pub fn open<L: Ledger>(self) -> (Book<L>, Share<L>) { (Book(PhantomData), Share(PhantomData)) }
    }
    impl<L: Ledger> Book<L> {
        pub fn add(&mut self, _: &mut Share<L>, _: u64) {}
    }
}
use alloc::{AllocError, Global};
#[derive(Debug, PartialEq)]
pub struct Vec<T>(std::vec::Vec<T>);
impl<T> Vec<T> {
    pub fn new(_: Global) -> Vec<T> { Vec(std::vec::Vec::new()) }
    pub fn with_capacity(_: Global, room: usize) -> Result<Vec<T>, AllocError> {
        let mut items = std::vec::Vec::new();
        items.try_reserve_exact(room).map_err(|_| AllocError)?;
        Ok(Vec(items))
    }
    pub fn from_items(items: std::vec::Vec<T>) -> Result<Vec<T>, AllocError> { Ok(Vec(items)) }
    pub fn push(&mut self, item: T) -> Result<(), AllocError> { self.0.push(item); Ok(()) }
    pub fn as_slice(&self) -> &[T] { &self.0 }
    pub fn as_mut_slice(&mut self) -> &mut [T] { &mut self.0 }
    pub fn clear(&mut self) { self.0.clear() }
    pub fn truncate(&mut self, len: usize) { self.0.truncate(len) }
    pub fn capacity(&self) -> usize { self.0.capacity() }
}
impl<T: Clone> Vec<T> {
    pub fn from_slice(_: Global, items: &[T]) -> Result<Vec<T>, AllocError> { Ok(Vec(items.to_vec())) }
    pub fn extend_from_slice(&mut self, items: &[T]) -> Result<(), AllocError> { self.0.extend_from_slice(items); Ok(()) }
}
impl<T> std::ops::Deref for Vec<T> {
    type Target = [T];
    fn deref(&self) -> &[T] { &self.0 }
}
impl<T> std::ops::DerefMut for Vec<T> {
    fn deref_mut(&mut self) -> &mut [T] { &mut self.0 }
}
#[derive(Debug, PartialEq)]
pub struct String(pub std::string::String);
impl String {
    pub fn new(_: Global) -> String { String(std::string::String::new()) }
    pub fn with_capacity(_: Global, room: usize) -> Result<String, AllocError> { Ok(String(std::string::String::with_capacity(room))) }
    pub fn from_str(_: Global, text: &str) -> Result<String, AllocError> { Ok(String(text.to_owned())) }
    pub fn as_str(&self) -> &str { &self.0 }
    pub fn push_str(&mut self, text: &str) -> Result<(), AllocError> { self.0.push_str(text); Ok(()) }
    pub fn push(&mut self, letter: char) -> Result<(), AllocError> { self.0.push(letter); Ok(()) }
}
impl std::ops::Deref for String {
    type Target = str;
    fn deref(&self) -> &str { &self.0 }
}
impl fmt::Display for String {
    fn fmt(&self, f: &mut fmt::Formatter<'_>) -> fmt::Result { f.write_str(&self.0) }
}
pub trait ToStringIn: fmt::Display {
    fn to_string_in(&self, _: Global) -> Result<String, AllocError> { Ok(String(format!("{self}"))) }
}
impl<T: fmt::Display + ?Sized> ToStringIn for T {}
pub trait CollectIn<'a>: Iterator<Item = &'a str> + Sized {
    fn collect_in(self, _: Global) -> Result<String, AllocError> { Ok(String(self.collect())) }
}
impl<'a, I: Iterator<Item = &'a str>> CollectIn<'a> for I {}
#[macro_export]
macro_rules! format_in {
    ($alloc:expr; $($rest:tt)*) => { Ok::<_, $crate::alloc::AllocError>($crate::String(format!($($rest)*))) };
}
#[macro_export]
macro_rules! vec_in {
    ($alloc:expr; $($rest:tt)*) => { $crate::Vec::from_items(vec![$($rest)*]) };
}
