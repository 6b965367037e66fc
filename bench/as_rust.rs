//! What `bench/as_rust` puts before the crates that it turned into modules: a `main` that makes plain steps as
//! bench/plain.rs does, and the module `rt`, which stands for Rattle's std and for the kit's crates. Each type of `rt`
//! is one of Rust's std, or stands on one, and memory may be refused where Rattle's may be. An index is checked, as
//! ever in Rust.

use gw_expr::End;
use gw_meaning::{Outcome, Replication};
use gw_model::Version;
use gw_scan::{Notes, Tally, Turn};
use gw_state::State;
use rt::alloc::{AllocError, Global};
use rt::prelude::*;
use std::io::{Read, Write};

fn main() {
    let mut input = std::vec::Vec::new();
    std::io::stdin().read_to_end(&mut input).unwrap();
    let Ok(lines) = gw_lines::read_model(Global, split_model(&input)) else {
        std::process::exit(1)
    };
    let mut replications = Vec::new(Global);
    replications
        .push(Replication { number: 1, seed: 1 })
        .ok()
        .unwrap();
    let Ok(version) = Version::new(Global, lines, 1_000_000_000, replications, 1_000_000) else {
        std::process::exit(1)
    };
    let mut state = State::zero(Global);
    let (end, steps) = run(Global, &version, 1, &mut state).ok().unwrap();
    eprintln!("steps {steps}");
    if let Some(End::CommandsDone) = end {
        let complete = state.complete();
        let text = gw_report::print(Global, &version, 1, complete, &state, Outcome::Complete);
        std::io::stdout().write_all(&text.ok().unwrap()).unwrap();
    }
}

// The lines before the line `end`.
fn split_model(input: &[u8]) -> &[u8] {
    let mut before = 0;
    for line in input.split_inclusive(|byte| *byte == b'\n') {
        if matches!(line, b"end\n" | b"end\r\n" | b"end") {
            return &input[..before];
        }
        before += line.len();
    }
    input
}

// As in bench/plain.rs, and tells how many steps were made.
#[inline(never)]
fn run(
    alloc: Global,
    version: &Version,
    seed: u64,
    state: &mut State,
) -> Result<(Option<End>, u64), AllocError> {
    let mut notes = Notes::new(alloc, state.streams());
    let mut tally = Tally::new();
    for _moment in 0..version.limit() {
        match gw_scan::step(alloc, version, seed, state, &mut notes, &mut tally)? {
            Turn::Moved => (),
            Turn::Ended(end) => return Ok((Some(end), tally.count())),
        }
    }
    Ok((gw_scan::end_at(alloc, version, seed, state)?, tally.count()))
}

mod rt {
    pub mod prelude {
        pub use super::alloc::{Box, Vec};
        pub use super::{Clone, CollectFrom, Drop, SliceFrom};
    }

    use alloc::{AllocError, Global, Vec};

    // Any type may be dropped.
    pub trait Drop {}
    impl<T> Drop for T {}

    // A copy that takes memory may be refused. That of a `Copy` type is not.
    pub trait Clone: Sized {
        fn clone(&self) -> Result<Self, AllocError>;
    }
    impl<T: Copy> Clone for T {
        #[inline(always)]
        fn clone(&self) -> Result<T, AllocError> {
            Ok(*self)
        }
    }
    pub trait SliceFrom<T> {
        fn to_vec_from(&self, alloc: Global) -> Result<Vec<T>, AllocError>
        where
            T: Clone;
        fn to_ascii_uppercase_from(&self, alloc: Global) -> Result<Vec<u8>, AllocError>
        where
            Self: AsRef<[u8]>;
    }
    impl<T> SliceFrom<T> for [T] {
        fn to_vec_from(&self, alloc: Global) -> Result<Vec<T>, AllocError>
        where
            T: Clone,
        {
            let mut all = Vec::with_capacity(alloc, self.len())?;
            for it in self {
                all.push_reserved(Clone::clone(it)?);
            }
            Ok(all)
        }
        fn to_ascii_uppercase_from(&self, alloc: Global) -> Result<Vec<u8>, AllocError>
        where
            Self: AsRef<[u8]>,
        {
            self.as_ref()
                .iter()
                .map(|byte| byte.to_ascii_uppercase())
                .collect_from(alloc)
        }
    }
    pub trait CollectFrom: Iterator + Sized {
        fn collect_from(self, alloc: Global) -> Result<Vec<Self::Item>, AllocError> {
            let mut all = Vec::new(alloc);
            for it in self {
                all.push(it)?;
            }
            Ok(all)
        }
    }
    impl<I: Iterator> CollectFrom for I {}

    pub mod alloc {
        use super::Clone;
        use std::ops::{Deref, DerefMut};

        #[derive(core::clone::Clone, Copy)]
        pub struct Global;
        #[derive(core::clone::Clone, Copy, Debug, PartialEq, Eq)]
        pub struct AllocError;
        pub struct AllocFailed<T> {
            pub value: T,
        }
        impl<T> From<AllocFailed<T>> for AllocError {
            fn from(_: AllocFailed<T>) -> AllocError {
                AllocError
            }
        }

        pub struct Box<T>(std::boxed::Box<T>);
        impl<T> Box<T> {
            #[inline]
            pub fn new(_: Global, value: T) -> Result<Box<T>, AllocFailed<T>> {
                match std::boxed::Box::try_new_uninit() {
                    Ok(room) => Ok(Box(std::boxed::Box::write(room, value))),
                    Err(_) => Err(AllocFailed { value }),
                }
            }
        }
        impl<T> Deref for Box<T> {
            type Target = T;
            #[inline(always)]
            fn deref(&self) -> &T {
                &self.0
            }
        }
        impl<T> DerefMut for Box<T> {
            #[inline(always)]
            fn deref_mut(&mut self) -> &mut T {
                &mut self.0
            }
        }

        #[derive(PartialEq, Eq, Hash)]
        pub struct Vec<T>(std::vec::Vec<T>);
        impl<T> Vec<T> {
            pub const fn new(_: Global) -> Vec<T> {
                Vec(std::vec::Vec::new())
            }
            pub fn with_capacity(_: Global, count: usize) -> Result<Vec<T>, AllocError> {
                match std::vec::Vec::try_with_capacity(count) {
                    Ok(it) => Ok(Vec(it)),
                    Err(_) => Err(AllocError),
                }
            }
            pub fn from_slice(alloc: Global, items: &[T]) -> Result<Vec<T>, AllocError>
            where
                T: Copy,
            {
                let mut all = Vec::with_capacity(alloc, items.len())?;
                all.0.extend_from_slice(items);
                Ok(all)
            }
            #[inline]
            pub fn push(&mut self, value: T) -> Result<(), AllocFailed<T>> {
                if self.0.len() == self.0.capacity() && self.0.try_reserve(1).is_err() {
                    return Err(AllocFailed { value });
                }
                self.push_reserved(value);
                Ok(())
            }
            // There is room.
            #[inline(always)]
            pub fn push_reserved(&mut self, value: T) {
                let len = self.0.len();
                unsafe {
                    self.0.as_mut_ptr().add(len).write(value);
                    self.0.set_len(len + 1);
                }
            }
            pub fn insert(&mut self, index: usize, value: T) -> Result<(), AllocFailed<T>> {
                if self.0.try_reserve(1).is_err() {
                    return Err(AllocFailed { value });
                }
                self.0.insert(index, value);
                Ok(())
            }
            #[inline]
            pub fn reserve(&mut self, count: usize) -> Result<(), AllocError> {
                self.0.try_reserve(count).map_err(|_| AllocError)
            }
            pub fn extend_from_slice(&mut self, items: &[T]) -> Result<(), AllocError>
            where
                T: Copy,
            {
                self.reserve(items.len())?;
                self.0.extend_from_slice(items);
                Ok(())
            }
            pub fn resize(&mut self, len: usize, value: T) -> Result<(), AllocError>
            where
                T: Copy,
            {
                self.reserve(len.saturating_sub(self.len()))?;
                self.0.resize(len, value);
                Ok(())
            }
            pub fn retain<F: FnMut(&T) -> bool>(&mut self, keeps: F) {
                self.0.retain(keeps)
            }
            pub fn sort_by_key<O: Ord, F: FnMut(&T) -> O>(
                &mut self,
                key: F,
            ) -> Result<(), AllocError> {
                self.0.sort_by_key(key);
                Ok(())
            }
            pub fn pop(&mut self) -> Option<T> {
                self.0.pop()
            }
            pub fn remove(&mut self, index: usize) -> T {
                self.0.remove(index)
            }
            pub fn swap_remove(&mut self, index: usize) -> T {
                self.0.swap_remove(index)
            }
            pub fn truncate(&mut self, len: usize) {
                self.0.truncate(len)
            }
            pub fn clear(&mut self) {
                self.0.clear()
            }
            pub fn capacity(&self) -> usize {
                self.0.capacity()
            }
            pub fn allocator(&self) -> &Global {
                &Global
            }
            pub fn as_slice(&self) -> &[T] {
                &self.0
            }
            pub fn as_mut_slice(&mut self) -> &mut [T] {
                &mut self.0
            }
        }
        impl<T: Clone> Clone for Vec<T> {
            fn clone(&self) -> Result<Vec<T>, AllocError> {
                super::SliceFrom::to_vec_from(self.as_slice(), Global)
            }
        }
        impl<T> Deref for Vec<T> {
            type Target = [T];
            #[inline(always)]
            fn deref(&self) -> &[T] {
                &self.0
            }
        }
        impl<T> DerefMut for Vec<T> {
            #[inline(always)]
            fn deref_mut(&mut self) -> &mut [T] {
                &mut self.0
            }
        }
        impl<T> std::borrow::Borrow<[T]> for Vec<T> {
            fn borrow(&self) -> &[T] {
                &self.0
            }
        }
        impl<'a, T> IntoIterator for &'a Vec<T> {
            type Item = &'a T;
            type IntoIter = std::slice::Iter<'a, T>;
            fn into_iter(self) -> Self::IntoIter {
                self.0.iter()
            }
        }
        impl<T> IntoIterator for Vec<T> {
            type Item = T;
            type IntoIter = std::vec::IntoIter<T>;
            fn into_iter(self) -> Self::IntoIter {
                self.0.into_iter()
            }
        }
    }

    pub mod sync {
        use super::alloc::{AllocError, AllocFailed, Global};

        pub struct Arc<T>(std::sync::Arc<T>);
        impl<T> Arc<T> {
            pub fn new(_: Global, value: T) -> Result<Arc<T>, AllocFailed<T>> {
                let Ok(mut room) = std::sync::Arc::try_new_uninit() else {
                    return Err(AllocFailed { value });
                };
                std::sync::Arc::get_mut(&mut room).unwrap().write(value);
                Ok(Arc(unsafe { room.assume_init() }))
            }
            #[inline(always)]
            pub fn try_clone(it: &Arc<T>) -> Result<Arc<T>, AllocError> {
                Ok(Arc(it.0.clone()))
            }
        }
        impl<T> std::ops::Deref for Arc<T> {
            type Target = T;
            #[inline(always)]
            fn deref(&self) -> &T {
                &self.0
            }
        }
    }

    pub mod collections {
        use super::alloc::{AllocError, AllocFailed, Global};

        pub struct VecDeque<T>(std::collections::VecDeque<T>);
        impl<T> VecDeque<T> {
            pub fn new(_: Global) -> VecDeque<T> {
                VecDeque(std::collections::VecDeque::new())
            }
            pub fn with_capacity(_: Global, count: usize) -> Result<VecDeque<T>, AllocError> {
                match std::collections::VecDeque::try_with_capacity(count) {
                    Ok(it) => Ok(VecDeque(it)),
                    Err(_) => Err(AllocError),
                }
            }
            #[inline]
            pub fn reserve(&mut self, count: usize) -> Result<(), AllocError> {
                self.0.try_reserve(count).map_err(|_| AllocError)
            }
            // There is room.
            #[inline(always)]
            pub fn push_back_reserved(&mut self, value: T) {
                self.0.push_back(value)
            }
            pub fn push_back(&mut self, value: T) -> Result<(), AllocFailed<T>> {
                if self.0.try_reserve(1).is_err() {
                    return Err(AllocFailed { value });
                }
                self.0.push_back(value);
                Ok(())
            }
            pub fn insert(&mut self, index: usize, value: T) -> Result<(), AllocFailed<T>> {
                if self.0.try_reserve(1).is_err() {
                    return Err(AllocFailed { value });
                }
                self.0.insert(index, value);
                Ok(())
            }
            pub fn allocator(&self) -> &Global {
                &Global
            }
        }
        impl<T> std::ops::Deref for VecDeque<T> {
            type Target = std::collections::VecDeque<T>;
            #[inline(always)]
            fn deref(&self) -> &Self::Target {
                &self.0
            }
        }
        impl<T> std::ops::DerefMut for VecDeque<T> {
            #[inline(always)]
            fn deref_mut(&mut self) -> &mut Self::Target {
                &mut self.0
            }
        }

        // Only reading a model takes one: where memory is refused, Rust's ends the program.
        pub struct BTreeMap<K, V>(std::collections::BTreeMap<K, V>);
        impl<K: Ord, V> BTreeMap<K, V> {
            pub fn new(_: Global) -> BTreeMap<K, V> {
                BTreeMap(std::collections::BTreeMap::new())
            }
            pub fn insert(&mut self, key: K, value: V) -> Result<Option<V>, AllocError> {
                Ok(self.0.insert(key, value))
            }
        }
        impl<K, V> std::ops::Deref for BTreeMap<K, V> {
            type Target = std::collections::BTreeMap<K, V>;
            fn deref(&self) -> &Self::Target {
                &self.0
            }
        }
        impl<K, V> std::ops::DerefMut for BTreeMap<K, V> {
            fn deref_mut(&mut self) -> &mut Self::Target {
                &mut self.0
            }
        }
    }

    pub mod arrayvec {
        pub struct ArrayVec<T: Copy, const N: usize> {
            items: [std::mem::MaybeUninit<T>; N],
            len: usize,
        }
        impl<T: Copy, const N: usize> ArrayVec<T, N> {
            pub fn new() -> ArrayVec<T, N> {
                ArrayVec {
                    items: [std::mem::MaybeUninit::uninit(); N],
                    len: 0,
                }
            }
            pub fn try_push(&mut self, value: T) -> Result<(), T> {
                if self.len == N {
                    return Err(value);
                }
                self.items[self.len].write(value);
                self.len += 1;
                Ok(())
            }
            pub fn pop(&mut self) -> Option<T> {
                if self.len == 0 {
                    return None;
                }
                self.len -= 1;
                Some(unsafe { self.items[self.len].assume_init() })
            }
        }
    }

    pub mod slab {
        use super::Clone;
        use super::alloc::{AllocError, Global, Vec};

        #[derive(core::clone::Clone, Copy)]
        enum Entry<T> {
            Vacant(usize),
            Occupied(T),
        }
        // Values by keys that are given anew once they are free.
        pub struct Slab<T> {
            entries: Vec<Entry<T>>,
            len: usize,
            next: usize,
        }
        impl<T> Slab<T> {
            pub fn new(alloc: Global) -> Slab<T> {
                Slab {
                    entries: Vec::new(alloc),
                    len: 0,
                    next: 0,
                }
            }
            pub fn reserve(&mut self, count: usize) -> Result<(), AllocError> {
                let free = self.entries.len() - self.len;
                if count > free {
                    self.entries.reserve(count - free)?;
                }
                Ok(())
            }
            #[inline]
            pub fn insert_reserved(&mut self, value: T) -> usize {
                let key = self.next;
                self.len += 1;
                if key == self.entries.len() {
                    self.entries.push_reserved(Entry::Occupied(value));
                    self.next = key + 1;
                } else {
                    let Entry::Vacant(next) = self.entries[key] else {
                        unreachable!()
                    };
                    self.next = next;
                    self.entries[key] = Entry::Occupied(value);
                }
                key
            }
            #[inline]
            pub fn remove(&mut self, key: usize) -> T {
                let old = std::mem::replace(&mut self.entries[key], Entry::Vacant(self.next));
                let Entry::Occupied(value) = old else {
                    unreachable!()
                };
                self.len -= 1;
                self.next = key;
                value
            }
        }
        impl<T> std::ops::Index<usize> for Slab<T> {
            type Output = T;
            #[inline]
            fn index(&self, key: usize) -> &T {
                let Entry::Occupied(value) = &self.entries[key] else {
                    unreachable!()
                };
                value
            }
        }
        impl<T: Copy> Clone for Slab<T> {
            fn clone(&self) -> Result<Slab<T>, AllocError> {
                Ok(Slab {
                    entries: self.entries.clone()?,
                    len: self.len,
                    next: self.next,
                })
            }
        }
    }

    pub mod itoa {
        use std::io::Write;

        // Writes the digits so that they end at `end`.
        pub fn write_digits(number: u64, line: &mut [u8], end: usize) {
            let mut buffer = Buffer::new();
            let digits = buffer.format(number).as_bytes();
            line[end - digits.len()..end].copy_from_slice(digits);
        }
        pub struct Buffer {
            bytes: [u8; 40],
        }
        impl Buffer {
            pub fn new() -> Buffer {
                Buffer { bytes: [0; 40] }
            }
            pub fn format<T: std::fmt::Display>(&mut self, number: T) -> &str {
                let mut rest = &mut self.bytes[..];
                write!(rest, "{number}").unwrap();
                let len = 40 - rest.len();
                std::str::from_utf8(&self.bytes[..len]).unwrap()
            }
        }
    }

    pub mod indexmap {
        use super::Clone;
        use super::alloc::{AllocError, Global, Vec};
        use std::borrow::Borrow;
        use std::hash::{Hash, Hasher};

        // Folds eight bytes at a time into the halves of a product.
        struct Folding(u64);
        impl Folding {
            #[inline(always)]
            fn fold(&mut self, word: u64) {
                let product = u128::from(self.0 ^ word) * 0x9e37_79b9_7f4a_7c15;
                self.0 = product as u64 ^ (product >> 64) as u64;
            }
        }
        impl Hasher for Folding {
            fn finish(&self) -> u64 {
                self.0
            }
            #[inline]
            fn write(&mut self, bytes: &[u8]) {
                let (words, rest) = bytes.as_chunks::<8>();
                for word in words {
                    self.fold(u64::from_le_bytes(*word));
                }
                let mut last = rest.len() as u64;
                for byte in rest {
                    last = last << 8 | u64::from(*byte);
                }
                self.fold(last);
            }
            #[inline]
            fn write_u32(&mut self, word: u32) {
                self.fold(u64::from(word));
            }
            #[inline]
            fn write_u64(&mut self, word: u64) {
                self.fold(word);
            }
            #[inline]
            fn write_usize(&mut self, word: usize) {
                self.fold(word as u64);
            }
        }
        #[inline(always)]
        fn hash_of<Q: Hash + ?Sized>(key: &Q) -> u32 {
            let mut folding = Folding(0x243f_6a88_85a3_08d3);
            key.hash(&mut folding);
            folding.finish() as u32
        }

        #[derive(core::clone::Clone, Copy)]
        struct Slot {
            hash: u32,
            // The place of an entry, from 1; 0 where the slot is free.
            place: u32,
        }
        const FREE: Slot = Slot { hash: 0, place: 0 };

        // Entries in order of coming, and a table of their places by their hashes, at most half full, probed in turn.
        pub struct IndexMap<K, V> {
            slots: Vec<Slot>,
            hashes: Vec<u32>,
            keys: Vec<K>,
            values: Vec<V>,
        }
        impl<K: Hash + Eq, V> IndexMap<K, V> {
            pub fn new(alloc: Global) -> IndexMap<K, V> {
                IndexMap {
                    slots: Vec::new(alloc),
                    hashes: Vec::new(alloc),
                    keys: Vec::new(alloc),
                    values: Vec::new(alloc),
                }
            }
            pub fn with_capacity(alloc: Global, count: usize) -> Result<IndexMap<K, V>, AllocError> {
                let mut map = IndexMap::new(alloc);
                map.reserve(count)?;
                Ok(map)
            }
            pub fn allocator(&self) -> &Global {
                &Global
            }
            #[inline]
            pub fn len(&self) -> usize {
                self.keys.len()
            }
            #[inline]
            pub fn get_index_of<Q: Hash + Eq + ?Sized>(&self, key: &Q) -> Option<usize>
            where
                K: Borrow<Q>,
            {
                if self.keys.is_empty() {
                    return None;
                }
                self.place(hash_of(key), key)
            }
            #[inline]
            fn place<Q: Eq + ?Sized>(&self, hash: u32, key: &Q) -> Option<usize>
            where
                K: Borrow<Q>,
            {
                if self.slots.is_empty() {
                    return None;
                }
                let mask = self.slots.len() - 1;
                let mut at = hash as usize & mask;
                loop {
                    let slot = self.slots[at];
                    if slot.place == 0 {
                        return None;
                    }
                    let index = slot.place as usize - 1;
                    if slot.hash == hash && self.keys[index].borrow() == key {
                        return Some(index);
                    }
                    at = (at + 1) & mask;
                }
            }
            pub fn get<Q: Hash + Eq + ?Sized>(&self, key: &Q) -> Option<&V>
            where
                K: Borrow<Q>,
            {
                self.get_index_of(key).map(|index| &self.values[index])
            }
            pub fn get_index(&self, index: usize) -> Option<(&K, &V)> {
                Some((self.keys.get(index)?, &self.values[index]))
            }
            #[inline]
            pub fn reserve(&mut self, count: usize) -> Result<(), AllocError> {
                self.hashes.reserve(count)?;
                self.keys.reserve(count)?;
                self.values.reserve(count)?;
                let wanted = (self.keys.len() + count) * 2;
                if wanted > self.slots.len() {
                    self.grow(wanted.next_power_of_two().max(8))?;
                }
                Ok(())
            }
            #[cold]
            fn grow(&mut self, count: usize) -> Result<(), AllocError> {
                let mut slots = Vec::with_capacity(Global, count)?;
                for _ in 0..count {
                    slots.push_reserved(FREE);
                }
                self.slots = slots;
                self.place_all();
                Ok(())
            }
            fn place_all(&mut self) {
                self.slots.fill(FREE);
                for index in 0..self.keys.len() {
                    self.put(index);
                }
            }
            fn put(&mut self, index: usize) {
                let hash = self.hashes[index];
                let mask = self.slots.len() - 1;
                let mut at = hash as usize & mask;
                while self.slots[at].place != 0 {
                    at = (at + 1) & mask;
                }
                self.slots[at] = Slot {
                    hash,
                    place: index as u32 + 1,
                };
            }
            pub fn insert_full(
                &mut self,
                key: K,
                value: V,
            ) -> Result<(usize, Option<V>), AllocError> {
                let hash = hash_of(&key);
                if let Some(index) = self.place(hash, &key) {
                    return Ok((
                        index,
                        Some(std::mem::replace(&mut self.values[index], value)),
                    ));
                }
                self.reserve(1)?;
                let index = self.keys.len();
                self.hashes.push_reserved(hash);
                self.keys.push_reserved(key);
                self.values.push_reserved(value);
                self.put(index);
                Ok((index, None))
            }
            pub fn insert(&mut self, key: K, value: V) -> Result<Option<V>, AllocError> {
                Ok(self.insert_full(key, value)?.1)
            }
            pub fn swap_remove<Q: Hash + Eq + ?Sized>(&mut self, key: &Q) -> Option<V>
            where
                K: Borrow<Q>,
            {
                let index = self.get_index_of(key)?;
                let mut at = self.slot(index);
                let last = self.keys.len() - 1;
                let of_last = self.slot(last);
                self.slots[of_last].place = index as u32 + 1;
                self.slots[at] = FREE;
                // Those after it that would not be found now move up.
                let mask = self.slots.len() - 1;
                let mut next = (at + 1) & mask;
                while self.slots[next].place != 0 {
                    let home = self.slots[next].hash as usize & mask;
                    if (next.wrapping_sub(home) & mask) >= (next.wrapping_sub(at) & mask) {
                        self.slots[at] = self.slots[next];
                        self.slots[next] = FREE;
                        at = next;
                    }
                    next = (next + 1) & mask;
                }
                self.hashes.swap_remove(index);
                self.keys.swap_remove(index);
                Some(self.values.swap_remove(index))
            }
            fn slot(&self, index: usize) -> usize {
                let mask = self.slots.len() - 1;
                let mut at = self.hashes[index] as usize & mask;
                while self.slots[at].place as usize != index + 1 {
                    at = (at + 1) & mask;
                }
                at
            }
            pub fn retain<F: FnMut(&K, &mut V) -> bool>(&mut self, mut keeps: F) {
                let mut index = 0;
                while index < self.keys.len() {
                    if keeps(&self.keys[index], &mut self.values[index]) {
                        index += 1;
                    } else {
                        self.hashes.remove(index);
                        self.keys.remove(index);
                        self.values.remove(index);
                    }
                }
                self.place_all();
            }
        }

        pub struct IndexSet<K>(IndexMap<K, ()>);
        impl<K: Hash + Eq> IndexSet<K> {
            pub fn new(alloc: Global) -> IndexSet<K> {
                IndexSet(IndexMap::new(alloc))
            }
            pub fn allocator(&self) -> &Global {
                &Global
            }
            #[inline]
            pub fn len(&self) -> usize {
                self.0.len()
            }
            #[inline]
            pub fn get_full<Q: Hash + Eq + ?Sized>(&self, key: &Q) -> Option<(usize, &K)>
            where
                K: Borrow<Q>,
            {
                self.0.get_index_of(key).map(|index| (index, &self[index]))
            }
            pub fn contains<Q: Hash + Eq + ?Sized>(&self, key: &Q) -> bool
            where
                K: Borrow<Q>,
            {
                self.0.get_index_of(key).is_some()
            }
            pub fn as_slice(&self) -> &[K] {
                &self.0.keys
            }
            #[inline]
            pub fn reserve(&mut self, count: usize) -> Result<(), AllocError> {
                self.0.reserve(count)
            }
            pub fn insert_full(&mut self, key: K) -> Result<(usize, bool), AllocError> {
                let (index, old) = self.0.insert_full(key, ())?;
                Ok((index, old.is_none()))
            }
            pub fn insert(&mut self, key: K) -> Result<bool, AllocError> {
                Ok(self.insert_full(key)?.1)
            }
            pub fn swap_remove<Q: Hash + Eq + ?Sized>(&mut self, key: &Q) -> bool
            where
                K: Borrow<Q>,
            {
                self.0.swap_remove(key).is_some()
            }
        }
        impl<K: Hash + Eq> std::ops::Index<usize> for IndexSet<K> {
            type Output = K;
            #[inline]
            fn index(&self, index: usize) -> &K {
                &self.0.keys[index]
            }
        }
        impl<K: Clone> Clone for IndexSet<K> {
            fn clone(&self) -> Result<IndexSet<K>, AllocError> {
                Ok(IndexSet(IndexMap {
                    slots: self.0.slots.clone()?,
                    hashes: self.0.hashes.clone()?,
                    keys: self.0.keys.clone()?,
                    values: self.0.values.clone()?,
                }))
            }
        }
    }
}
