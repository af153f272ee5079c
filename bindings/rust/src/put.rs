//! What one call puts into a pool: an object that is a copy of something.
use crate::buffer::Buffer;
use crate::clear::Clear;
use crate::errors::{CreateError, MemoryRefused};
use crate::key::Key;
use crate::lane::Lane;
use crate::pool::Pool;

/// A type whose objects can be made a copy of something, for [`Pool::put`] and [`Lane::put`].
///
/// ```
/// use pardz::{Clear, MemoryRefused, Pool, Put};
///
/// #[derive(Default)]
/// struct Request {
///     path: String,
///     length: usize,
/// }
///
/// impl Clear for Request {
///     fn clear(&mut self) {
///         self.path.clear();
///         self.length = 0;
///     }
/// }
///
/// impl Put for Request {
///     type From = str;
///
///     fn put(&mut self, path: &str) -> Result<(), MemoryRefused> {
///         self.length = path.len();
///         self.path.put(path)
///     }
/// }
///
/// let pool = Pool::<Request>::new();
/// let key = pool.put("/index.html")?;
/// assert_eq!(pool.get(key).expect("published").length, 11);
/// # Ok::<(), Box<dyn std::error::Error>>(())
/// ```
pub trait Put: Clear {
    /// What an object is a copy of.
    type From: ?Sized;

    /// Copies it into the object, which is empty.
    ///
    /// # Errors
    ///
    /// [`MemoryRefused`]: the object is emptied then, and isn't published.
    fn put(&mut self, from: &Self::From) -> Result<(), MemoryRefused>;
}

/// Of bytes.
impl Put for Buffer {
    type From = [u8];

    #[inline]
    fn put(&mut self, bytes: &[u8]) -> Result<(), MemoryRefused> {
        self.set(bytes)
    }
}

/// Of a text.
impl Put for String {
    type From = str;

    #[inline]
    fn put(&mut self, text: &str) -> Result<(), MemoryRefused> {
        self.try_reserve(text.len()).map_err(|_| MemoryRefused)?;
        self.push_str(text);
        Ok(())
    }
}

/// Of values, which are cloned.
impl<U: Clone> Put for Vec<U> {
    type From = [U];

    #[inline]
    fn put(&mut self, values: &[U]) -> Result<(), MemoryRefused> {
        self.try_reserve(values.len()).map_err(|_| MemoryRefused)?;
        self.extend_from_slice(values);
        Ok(())
    }
}

impl<T: Put + Default> Pool<T> {
    /// Publishes a copy of something: of bytes, a text or values in a pool of buffers, strings or vectors; and of what a type of your own
    /// [tells](Put).
    ///
    /// # Errors
    ///
    /// As [`create`](Pool::create); [`CreateError::Memory`] also where the copy found no memory. Nothing is then published, and no place is
    /// lost.
    ///
    /// ```
    /// let pool = pardz::Pool::<pardz::Buffer>::new();
    /// let key = pool.put(b"abc")?;
    /// assert_eq!(*pool.get(key).expect("published"), *b"abc");
    /// # Ok::<(), Box<dyn std::error::Error>>(())
    /// ```
    #[inline(always)]
    pub fn put(&self, from: &T::From) -> Result<Key, CreateError> {
        let mut filling = self.create()?;
        T::put(&mut filling, from)?;
        Ok(filling.publish())
    }
}

impl<T: Put + Default> Lane<'_, T> {
    /// Publishes a copy of something, as [`Pool::put`].
    ///
    /// # Errors
    ///
    /// As [`create`](Lane::create); [`CreateError::Memory`] also where the copy found no memory. Nothing is then published, and no place is
    /// lost.
    ///
    /// ```
    /// # use pardz::{Buffer, CreateError, OpenError, Pool, Shape};
    /// let pool = Pool::<Buffer>::open(Shape { lanes: 1, first_page: 1, pages: 1, ..Shape::default() })?;
    /// let lane = pool.lane().expect("nobody has the shard");
    /// let key = lane.put(b"short").expect("one place");
    /// assert_eq!(lane.get(key).expect("published")[..], *b"short");
    /// assert_eq!(lane.put(b"more").err(), Some(CreateError::Full));
    /// # Ok::<(), OpenError>(())
    /// ```
    #[inline(always)]
    pub fn put(&self, from: &T::From) -> Result<Key, CreateError> {
        let mut filling = self.create()?;
        T::put(&mut filling, from)?;
        Ok(filling.publish())
    }
}
