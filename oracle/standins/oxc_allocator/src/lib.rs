//! Stand-in for oxc_allocator: the arena is nothing, and its vector and string are those of the standard library.

use std::{
    marker::PhantomData,
    ops::{Deref, DerefMut},
};

#[derive(Default)]
pub struct Allocator;

#[derive(Debug)]
pub struct ArenaVec<'a, T>(Vec<T>, PhantomData<&'a ()>);

impl<'a, T> ArenaVec<'a, T> {
    pub fn new_in(_allocator: &&'a Allocator) -> Self {
        Self(Vec::new(), PhantomData)
    }
}

impl<T> Deref for ArenaVec<'_, T> {
    type Target = Vec<T>;

    fn deref(&self) -> &Vec<T> {
        &self.0
    }
}

impl<T> DerefMut for ArenaVec<'_, T> {
    fn deref_mut(&mut self) -> &mut Vec<T> {
        &mut self.0
    }
}

pub struct ArenaStringBuilder<'a>(String, PhantomData<&'a ()>);

impl ArenaStringBuilder<'_> {
    pub fn push(&mut self, c: char) {
        self.0.push(c);
    }
}
