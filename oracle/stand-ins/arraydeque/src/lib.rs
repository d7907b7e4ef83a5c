// Stand-in for the crate arraydeque: a queue of at most CAP values. Wrapping drops the oldest when full, as 01 says of the rate
// windows ("newest 16 intervals"); Saturating refuses the new one.
use std::{collections::VecDeque, marker::PhantomData};

pub mod behavior {
    #[derive(Debug)]
    pub struct Wrapping;
    #[derive(Debug)]
    pub struct Saturating;
}

#[derive(Debug)]
pub struct ArrayDeque<T, const CAP: usize, B = behavior::Saturating> {
    values: VecDeque<T>,
    behavior: PhantomData<B>,
}

impl<T, const CAP: usize, B> ArrayDeque<T, CAP, B> {
    pub fn new() -> Self {
        Self { values: VecDeque::with_capacity(CAP), behavior: PhantomData }
    }

    pub fn len(&self) -> usize {
        self.values.len()
    }

    pub fn is_full(&self) -> bool {
        self.values.len() == CAP
    }

    pub fn iter(&self) -> std::collections::vec_deque::Iter<'_, T> {
        self.values.iter()
    }
}

impl<T, const CAP: usize> ArrayDeque<T, CAP, behavior::Wrapping> {
    pub fn push_back(&mut self, value: T) -> Option<T> {
        let oldest = if self.is_full() { self.values.pop_front() } else { None };
        self.values.push_back(value);
        oldest
    }
}

impl<T, const CAP: usize> FromIterator<T> for ArrayDeque<T, CAP, behavior::Saturating> {
    fn from_iter<I: IntoIterator<Item = T>>(values: I) -> Self {
        Self { values: values.into_iter().take(CAP).collect(), behavior: PhantomData }
    }
}
