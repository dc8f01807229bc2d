//! Stand-in for `heapless`: the set of fixed capacity, from its public documentation.
#![no_std]

pub mod index_set {
    /// A set of at most `N` values. Which place a value has in [`FnvIndexSet::iter`] is not promised.
    #[derive(Clone, Debug)]
    pub struct FnvIndexSet<T, const N: usize> {
        /// Each value at most once, in any of the places.
        places: [Option<T>; N],
    }

    impl<T: Eq, const N: usize> FnvIndexSet<T, N> {
        /// An empty set.
        pub fn new() -> Self {
            Self {
                places: core::array::from_fn(|_| None),
            }
        }

        /// `Ok(true)` if the value was not there and now is, `Ok(false)` if it already was, and the
        /// value back if it was not there and the set is full.
        pub fn insert(&mut self, value: T) -> Result<bool, T> {
            if self.contains(&value) {
                return Ok(false);
            }
            match self.places.iter_mut().find(|place| place.is_none()) {
                Some(place) => {
                    *place = Some(value);
                    Ok(true)
                }
                None => Err(value),
            }
        }

        /// Takes the value out; `true` if it was there.
        pub fn remove(&mut self, value: &T) -> bool {
            match self
                .places
                .iter_mut()
                .find(|place| place.as_ref() == Some(value))
            {
                Some(place) => {
                    *place = None;
                    true
                }
                None => false,
            }
        }

        /// Whether the value is there.
        pub fn contains(&self, value: &T) -> bool {
            self.iter().any(|held| held == value)
        }

        /// How many values are there.
        pub fn len(&self) -> usize {
            self.iter().count()
        }

        /// Whether none is there.
        pub fn is_empty(&self) -> bool {
            self.len() == 0
        }

        /// The values.
        pub fn iter(&self) -> impl Iterator<Item = &T> {
            self.places.iter().flatten()
        }
    }

    impl<T: Eq, const N: usize> Default for FnvIndexSet<T, N> {
        fn default() -> Self {
            Self::new()
        }
    }
}
