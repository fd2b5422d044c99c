//! The parts of Rattle's standard library that the crates use, over Rust's own: what takes memory answers a result that is always Ok.
#![allow(warnings)]
pub mod alloc {
    #[derive(Clone, Copy, Debug, PartialEq, Eq)]
    pub struct Global;
    #[derive(Clone, Copy, Debug, PartialEq, Eq)]
    pub struct AllocError;
    pub struct AllocFailed<T>(pub T);
    impl<T> core::fmt::Debug for AllocFailed<T> {
        fn fmt(&self, f: &mut core::fmt::Formatter<'_>) -> core::fmt::Result {
            write!(f, "AllocFailed")
        }
    }
    impl<T> From<AllocFailed<T>> for AllocError {
        fn from(_: AllocFailed<T>) -> Self {
            AllocError
        }
    }
}
use alloc::*;
pub fn box_new<T>(_: Global, v: T) -> Result<std::boxed::Box<T>, AllocFailed<T>> {
    Ok(std::boxed::Box::new(v))
}

pub fn box_into<T>(b: std::boxed::Box<T>) -> T {
    *b
}
#[derive(PartialEq, Eq, Hash, PartialOrd, Ord)]
pub struct Vec<T> {
    v: std::vec::Vec<T>,
}
impl<T: core::fmt::Debug> core::fmt::Debug for Vec<T> {
    fn fmt(&self, f: &mut core::fmt::Formatter<'_>) -> core::fmt::Result {
        self.v.fmt(f)
    }
}
impl<T> core::ops::Deref for Vec<T> {
    type Target = [T];
    fn deref(&self) -> &[T] {
        &self.v
    }
}
impl<T> core::ops::DerefMut for Vec<T> {
    fn deref_mut(&mut self) -> &mut [T] {
        &mut self.v
    }
}
impl<T> AsRef<[T]> for Vec<T> {
    fn as_ref(&self) -> &[T] {
        &self.v
    }
}
static GLOBAL: Global = Global;
impl<T> Vec<T> {
    #[inline]
    pub fn new(_: Global) -> Self {
        Vec {
            v: std::vec::Vec::new(),
        }
    }
    pub fn with_capacity(_: Global, n: usize) -> Result<Self, AllocError> {
        Ok(Vec {
            v: std::vec::Vec::with_capacity(n),
        })
    }
    pub fn from_slice(_: Global, s: &[T]) -> Result<Self, AllocError>
    where
        T: Clone,
    {
        Ok(Vec { v: s.to_vec() })
    }
    pub fn from_array<const N: usize>(_: Global, s: [T; N]) -> Result<Self, AllocError> {
        Ok(Vec {
            v: std::vec::Vec::from(s),
        })
    }
    #[inline]
    pub fn push(&mut self, x: T) -> Result<(), AllocFailed<T>> {
        self.v.push(x);
        Ok(())
    }
    #[inline]
    pub fn pop(&mut self) -> Option<T> {
        self.v.pop()
    }
    #[inline]
    pub fn as_slice(&self) -> &[T] {
        &self.v
    }
    #[inline]
    pub fn as_mut_slice(&mut self) -> &mut [T] {
        &mut self.v
    }
    #[inline]
    pub fn clear(&mut self) {
        self.v.clear()
    }
    #[inline]
    pub fn truncate(&mut self, n: usize) {
        self.v.truncate(n)
    }
    #[inline]
    pub fn extend_from_slice(&mut self, s: &[T]) -> Result<(), AllocError>
    where
        T: Clone,
    {
        self.v.extend_from_slice(s);
        Ok(())
    }
    pub fn resize(&mut self, n: usize, x: T) -> Result<(), AllocError>
    where
        T: Clone,
    {
        self.v.resize(n, x);
        Ok(())
    }
    pub fn insert(&mut self, i: usize, x: T) -> Result<(), AllocFailed<T>> {
        self.v.insert(i, x);
        Ok(())
    }
    pub fn remove(&mut self, i: usize) -> T {
        self.v.remove(i)
    }
    pub fn swap_remove(&mut self, i: usize) -> T {
        self.v.swap_remove(i)
    }
    pub fn reserve(&mut self, n: usize) -> Result<(), AllocError> {
        self.v.reserve(n);
        Ok(())
    }
    pub fn reserve_exact(&mut self, n: usize) -> Result<(), AllocError> {
        self.v.reserve_exact(n);
        Ok(())
    }
    pub fn shrink_to_fit(&mut self) -> Result<(), AllocError> {
        self.v.shrink_to_fit();
        Ok(())
    }
    pub fn capacity(&self) -> usize {
        self.v.capacity()
    }
    pub fn retain<F: FnMut(&T) -> bool>(&mut self, f: F) {
        self.v.retain(f)
    }
    pub fn allocator(&self) -> &Global {
        &GLOBAL
    }
    pub fn clone(&self) -> Result<Self, AllocError>
    where
        T: core::clone::Clone,
    {
        Ok(Vec {
            v: core::clone::Clone::clone(&self.v),
        })
    }
    pub fn sort(&mut self) -> Result<(), AllocError>
    where
        T: Ord,
    {
        self.v.sort();
        Ok(())
    }
    pub fn dedup(&mut self)
    where
        T: PartialEq,
    {
        self.v.dedup()
    }
    pub fn append(&mut self, o: &mut Vec<T>) -> Result<(), AllocError> {
        self.v.append(&mut o.v);
        Ok(())
    }
    pub fn drain<R: core::ops::RangeBounds<usize>>(&mut self, r: R) -> std::vec::Drain<'_, T> {
        self.v.drain(r)
    }
    pub fn split_off(&mut self, n: usize) -> Result<Vec<T>, AllocError> {
        Ok(Vec {
            v: self.v.split_off(n),
        })
    }
    pub fn extend<I: IntoIterator<Item = T>>(&mut self, i: I) -> Result<(), AllocError> {
        self.v.extend(i);
        Ok(())
    }
    pub fn into_inner(self) -> std::vec::Vec<T> {
        self.v
    }
    pub fn of(v: std::vec::Vec<T>) -> Self {
        Vec { v }
    }
}
impl<T> IntoIterator for Vec<T> {
    type Item = T;
    type IntoIter = std::vec::IntoIter<T>;
    fn into_iter(self) -> Self::IntoIter {
        self.v.into_iter()
    }
}
impl<'a, T> IntoIterator for &'a Vec<T> {
    type Item = &'a T;
    type IntoIter = core::slice::Iter<'a, T>;
    fn into_iter(self) -> Self::IntoIter {
        self.v.iter()
    }
}
impl<'a, T> IntoIterator for &'a mut Vec<T> {
    type Item = &'a mut T;
    type IntoIter = core::slice::IterMut<'a, T>;
    fn into_iter(self) -> Self::IntoIter {
        self.v.iter_mut()
    }
}
impl<T: PartialEq> PartialEq<[T]> for Vec<T> {
    fn eq(&self, o: &[T]) -> bool {
        self.v == o
    }
}
impl<T: PartialEq> PartialEq<&[T]> for Vec<T> {
    fn eq(&self, o: &&[T]) -> bool {
        self.v == *o
    }
}
pub trait SliceExt<T> {
    fn to_vec_r(&self, a: Global) -> Result<Vec<T>, AllocError>;
}
impl<T: core::clone::Clone> SliceExt<T> for [T] {
    fn to_vec_r(&self, _: Global) -> Result<Vec<T>, AllocError> {
        Ok(Vec { v: self.to_vec() })
    }
}
pub trait IterExt: Iterator {
    fn collect_r(self, a: Global) -> Result<Vec<Self::Item>, AllocError>;
}
impl<I: Iterator> IterExt for I {
    fn collect_r(self, _: Global) -> Result<Vec<I::Item>, AllocError> {
        Ok(Vec { v: self.collect() })
    }
}

#[derive(PartialEq, Eq, Hash, PartialOrd, Ord, Debug)]
pub struct String {
    s: std::string::String,
}
impl core::ops::Deref for String {
    type Target = str;
    fn deref(&self) -> &str {
        &self.s
    }
}
impl core::fmt::Display for String {
    fn fmt(&self, f: &mut core::fmt::Formatter<'_>) -> core::fmt::Result {
        self.s.fmt(f)
    }
}
impl String {
    pub fn new(_: Global) -> Self {
        String {
            s: std::string::String::new(),
        }
    }
    pub fn from_str(_: Global, s: &str) -> Result<Self, AllocError> {
        Ok(String { s: s.to_string() })
    }
    pub fn push_str(&mut self, s: &str) -> Result<(), AllocError> {
        self.s.push_str(s);
        Ok(())
    }
    pub fn push(&mut self, c: char) -> Result<(), AllocError> {
        self.s.push(c);
        Ok(())
    }
    pub fn as_str(&self) -> &str {
        &self.s
    }
    pub fn from_utf8(bytes: Vec<u8>) -> Result<Self, std::string::FromUtf8Error> {
        std::string::String::from_utf8(bytes.v).map(|s| String { s })
    }
    pub fn into_bytes(self) -> Vec<u8> {
        Vec {
            v: self.s.into_bytes(),
        }
    }
    pub fn write_fmt(&mut self, text: core::fmt::Arguments<'_>) -> Result<(), AllocError> {
        use core::fmt::Write;
        self.s.write_fmt(text).map_err(|_| AllocError)
    }
    pub fn of(s: std::string::String) -> Self {
        String { s }
    }
}
pub mod collections {
    use super::alloc::*;
    use core::hash::Hash;
    pub struct VecDeque<T> {
        d: std::collections::VecDeque<T>,
    }
    impl<T> core::ops::Deref for VecDeque<T> {
        type Target = std::collections::VecDeque<T>;
        fn deref(&self) -> &Self::Target {
            &self.d
        }
    }
    impl<T> VecDeque<T> {
        pub fn new(_: Global) -> Self {
            VecDeque {
                d: std::collections::VecDeque::new(),
            }
        }
        pub fn push_back(&mut self, x: T) -> Result<(), AllocError> {
            self.d.push_back(x);
            Ok(())
        }
        pub fn pop_front(&mut self) -> Option<T> {
            self.d.pop_front()
        }
    }
    pub struct HashMap<K, V> {
        m: std::collections::HashMap<K, V>,
    }
    impl<K: Eq + Hash, V> HashMap<K, V> {
        pub fn new(_: Global) -> Self {
            HashMap {
                m: std::collections::HashMap::new(),
            }
        }
        pub fn get<Q: ?Sized + Eq + Hash>(&self, k: &Q) -> Option<&V>
        where
            K: core::borrow::Borrow<Q>,
        {
            self.m.get(k)
        }
        pub fn get_mut<Q: ?Sized + Eq + Hash>(&mut self, k: &Q) -> Option<&mut V>
        where
            K: core::borrow::Borrow<Q>,
        {
            self.m.get_mut(k)
        }
        pub fn contains_key<Q: ?Sized + Eq + Hash>(&self, k: &Q) -> bool
        where
            K: core::borrow::Borrow<Q>,
        {
            self.m.contains_key(k)
        }
        pub fn insert(&mut self, k: K, v: V) -> Result<Option<V>, AllocFailed<(K, V)>> {
            Ok(self.m.insert(k, v))
        }
        pub fn remove<Q: ?Sized + Eq + Hash>(&mut self, k: &Q) -> Option<V>
        where
            K: core::borrow::Borrow<Q>,
        {
            self.m.remove(k)
        }
        pub fn len(&self) -> usize {
            self.m.len()
        }
        pub fn clear(&mut self) {
            self.m.clear()
        }
        pub fn clone(&self) -> Result<Self, AllocError>
        where
            K: Clone,
            V: Clone,
        {
            Ok(HashMap { m: self.m.clone() })
        }
    }
    pub struct HashSet<K> {
        m: std::collections::HashSet<K>,
    }
    impl<K: Eq + Hash> HashSet<K> {
        pub fn new(_: Global) -> Self {
            HashSet {
                m: std::collections::HashSet::new(),
            }
        }
        pub fn contains<Q: ?Sized + Eq + Hash>(&self, k: &Q) -> bool
        where
            K: core::borrow::Borrow<Q>,
        {
            self.m.contains(k)
        }
        pub fn insert(&mut self, k: K) -> Result<bool, AllocFailed<K>> {
            Ok(self.m.insert(k))
        }
        pub fn len(&self) -> usize {
            self.m.len()
        }
        pub fn clear(&mut self) {
            self.m.clear()
        }
    }
    pub struct BTreeSet<K> {
        m: std::collections::BTreeSet<K>,
    }
    impl<K: Ord> BTreeSet<K> {
        pub fn new(_: Global) -> Self {
            BTreeSet {
                m: std::collections::BTreeSet::new(),
            }
        }
        pub fn insert(&mut self, k: K) -> Result<bool, AllocFailed<K>> {
            Ok(self.m.insert(k))
        }
        pub fn remove(&mut self, k: &K) -> bool {
            self.m.remove(k)
        }
        pub fn contains(&self, k: &K) -> bool {
            self.m.contains(k)
        }
        pub fn len(&self) -> usize {
            self.m.len()
        }
        pub fn last(&self) -> Option<&K> {
            self.m.iter().next_back()
        }
        pub fn iter(&self) -> std::collections::btree_set::Iter<'_, K> {
            self.m.iter()
        }
    }
    pub struct BinaryHeap<K> {
        m: std::collections::BinaryHeap<K>,
    }
    impl<K: Ord> BinaryHeap<K> {
        pub fn new(_: Global) -> Self {
            BinaryHeap {
                m: std::collections::BinaryHeap::new(),
            }
        }
        pub fn push(&mut self, k: K) -> Result<(), AllocFailed<K>> {
            self.m.push(k);
            Ok(())
        }
        pub fn pop(&mut self) -> Option<K> {
            self.m.pop()
        }
        pub fn peek(&self) -> Option<&K> {
            self.m.peek()
        }
        pub fn len(&self) -> usize {
            self.m.len()
        }
        pub fn is_empty(&self) -> bool {
            self.m.is_empty()
        }
    }
}
#[macro_export]
macro_rules! vec {
    (in $a:expr; $v:expr; $n:expr) => {{ let _ = $a; Ok::<$crate::Vec<_>, $crate::alloc::AllocError>($crate::Vec::of(std::vec![$v; $n])) }};
    (in $a:expr; $($v:expr),* $(,)?) => {{ let _ = $a; Ok::<$crate::Vec<_>, $crate::alloc::AllocError>($crate::Vec::of(std::vec![$($v),*])) }};
}
#[macro_export]
macro_rules! format { (in $a:expr; $($t:tt)*) => {{ let _ = $a; Ok::<$crate::String, $crate::alloc::AllocError>($crate::String::of(std::format!($($t)*))) }}; }
#[macro_export]
macro_rules! println { ($rt:expr; $($t:tt)*) => {{ let _ = &$rt; std::println!($($t)*); Ok::<(), $crate::io::Error>(()) }}; }
#[macro_export]
macro_rules! eprintln { ($rt:expr; $($t:tt)*) => {{ let _ = &$rt; std::eprintln!($($t)*); Ok::<(), $crate::io::Error>(()) }}; }
#[macro_export]
macro_rules! prove {
    ($($t:tt)*) => {
        ()
    };
}
pub mod process {
    pub use std::process::ExitCode;
    pub trait Abort {}
}
pub mod io {
    pub use std::io::{Error, ErrorKind, IsTerminal, Read, Result, Write};
    pub fn writer<R>(_: &R) -> std::io::Stdout {
        std::io::stdout()
    }
}
pub mod fs {
    pub fn open<R>(_: &R, n: &str) -> std::io::Result<std::fs::File> {
        std::fs::File::open(n)
    }
    pub fn create<R>(_: &R, n: &str) -> std::io::Result<std::fs::File> {
        std::fs::File::create(n)
    }
}
pub mod env {
    pub fn args<R>(_: &R) -> std::io::Result<impl Iterator<Item = super::String>> {
        Ok(std::env::args().map(super::String::of))
    }
}
pub mod rt {
    pub trait Files {}
    pub trait Env {}
    pub trait Clock {}
    impl Files for super::HostRuntime {}
    impl Env for super::HostRuntime {}
    impl Clock for super::HostRuntime {}
}
pub mod random {
    pub trait RandomSource {
        fn fill_bytes(&self, b: &mut [u8]) -> std::io::Result<()> {
            Ok(())
        }
    }
    impl RandomSource for super::HostRuntime {}
}
pub mod time {
    pub struct SystemTime;
    pub struct Since(u64);
    impl SystemTime {
        pub const UNIX_EPOCH: SystemTime = SystemTime;
        pub fn now<R: ?Sized>(_: &R) -> Result<SystemTime, ()> {
            Ok(SystemTime)
        }
        pub fn duration_since(&self, _: SystemTime) -> Result<Since, ()> {
            Ok(Since(0))
        }
    }
    impl Since {
        pub fn as_secs(&self) -> u64 {
            self.0
        }
    }
    #[derive(Clone, Copy)]
    pub struct Instant(std::time::Instant);
    impl Instant {
        pub fn now<R: ?Sized>(_: &R) -> Result<Instant, ()> {
            Ok(Instant(std::time::Instant::now()))
        }
        pub fn elapsed<R: ?Sized>(&self, _: &R) -> Result<Duration, ()> {
            Ok(self.0.elapsed())
        }
    }
    pub use std::time::Duration;
}
pub mod thread {
    use super::{AllocError, HostRuntime, Vec};
    pub trait Threads {}
    impl Threads for HostRuntime {}
    pub fn map_vec<R, T: Send, U: Send, F: Fn(T) -> U + Sync>(_: &R, items: Vec<T>, f: &F) -> Result<Vec<U>, AllocError> {
        Ok(Vec::of(std::thread::scope(|scope| {
            let started: std::vec::Vec<_> = items.into_inner().into_iter().map(|it| scope.spawn(move || f(it))).collect();
            started.into_iter().map(|it| it.join().unwrap()).collect()
        })))
    }
}
pub mod sync {
    pub use std::sync::*;
}
pub mod marker {
    pub use std::marker::*;
    pub trait Model {}
}
pub mod hash {
    pub use std::hash::*;
}
pub use std::{borrow, cmp, convert, fmt, iter, mem, ops, slice, str};
pub struct HostRuntime;
pub trait AllocGlobal {
    fn alloc(&self) -> Global {
        Global
    }
}
impl AllocGlobal for HostRuntime {}
impl HostRuntime {
    pub fn stderr(&self) -> std::io::Stderr {
        std::io::stderr()
    }
}
pub trait Print {}
impl Print for HostRuntime {}
pub trait Eprint {}
impl Eprint for HostRuntime {}
pub trait CloneR: Sized {
    fn clone(&self) -> Result<Self, AllocError>;
}
impl CloneR for HostRuntime {
    fn clone(&self) -> Result<Self, AllocError> {
        Ok(HostRuntime)
    }
}
pub mod prelude {
    pub use crate::{
        eprintln, format, println, prove, vec, AllocGlobal, CloneR, Eprint, HostRuntime, IterExt,
        Print,
        SliceExt, String, Vec,
    };
}
