//! How far a pool may go.
use crate::clear::Clear;
use crate::erased::keybits::{self, ShapeFault, GREATEST_TAG, MOST_LANES, MOST_PAGES};
use crate::errors::{Field, OpenError};
use crate::pool::Pool;

/// A pool of fixed size, for [`Pool::open`]. [`Default`] has 4 shards of 224 places each.
///
/// Page `p` of a shard has `first_page << p` places, but 4,096 at most. So a shard has `(first_page << pages) - first_page` in all, where
/// no page has more than 4,096; and 44,992 in the largest shape, whose 64 shards have 2.9 million. (It is laid out as in C.)
///
/// ```
/// use pardz::{Pool, Shape};
///
/// let pool = Pool::<String>::open(Shape { lanes: 2, first_page: 8, pages: 3, ..Shape::default() })?;
/// assert_eq!(pool.census().unopened, 2 * (8 + 16 + 32));
/// # Ok::<(), pardz::OpenError>(())
/// ```
#[derive(Clone, Copy, Debug, PartialEq, Eq)]
#[repr(C)]
pub struct Shape {
    /// How many shards there are, that is threads that create and `Lane`s at once: 1 to 64.
    pub lanes: u32,
    /// Places of a shard's first page: 1, 2, 4, 8, 16, 32 or 64.
    pub first_page: u32,
    /// Pages of a shard: 1 to 16.
    pub pages: u32,
    /// How often a place is used before it is retired for good: from 1.
    pub last_generation: u32,
    /// 0 to 255: stands in each key, so that a pool knows the keys of one with another tag for wrong.
    pub tag: u32,
}

impl Default for Shape {
    /// Four shards, of which each has pages of 32, 64 and 128 places.
    fn default() -> Shape {
        Shape {
            lanes: 4,
            first_page: 32,
            pages: 3,
            last_generation: u32::MAX,
            tag: 0,
        }
    }
}

/// The limits of a pool that grows, for other than [`Pool::new`] has them.
///
/// ```
/// use pardz::{CreateError, Limits, Pool};
///
/// // Two pools of one program, whose keys differ; each opens some thousand places at most.
/// let limits = Limits::new().tags(1).places(1000);
/// let one: Pool<String> = limits.open()?;
/// let other: Pool<String> = limits.first_tag(1).open()?;
/// let key = one.put("abc")?;
/// assert!(other.get(key).is_none());
/// assert_ne!(other.put("abc")?, key);
/// let full = (0..1000).find_map(|_| one.put("more").err());
/// assert_eq!(full, Some(CreateError::Full));
/// # Ok::<(), Box<dyn std::error::Error>>(())
/// ```
#[derive(Clone, Copy, Debug, PartialEq, Eq)]
#[must_use = "it opens a pool by `open`"]
pub struct Limits {
    pub(crate) shards: usize,
    pub(crate) places: usize,
    pub(crate) first_tag: u32,
    pub(crate) tags: u32,
    pub(crate) first_page: u32,
    pub(crate) pages: u32,
    pub(crate) last_generation: u32,
    /// Whether the places of shards that aren't there yet are counted.
    pub(crate) is_fixed: bool,
}

impl Limits {
    /// As [`Pool::new`]: 64 shards for each of the tags from 0 to 255, each with 44,992 places that are used 4,294,967,295 times.
    pub const fn new() -> Limits {
        Limits {
            shards: usize::MAX,
            places: usize::MAX,
            first_tag: 0,
            tags: GREATEST_TAG + 1,
            first_page: keybits::LARGEST_FIRST_PAGE,
            pages: MOST_PAGES,
            last_generation: u32::MAX,
            is_fixed: false,
        }
    }

    /// With so many shards at most, from 1 on: so many threads that create, and `Lane`s, at once.
    pub const fn shards(self, shards: usize) -> Limits {
        Limits { shards, ..self }
    }

    /// With so many places at most, from 1 on. A page that would exceed them isn't opened.
    pub const fn places(self, places: usize) -> Limits {
        Limits { places, ..self }
    }

    /// With keys of the tags from this one on, of 0 to 255: 64 shards have a tag.
    pub const fn first_tag(self, first_tag: u32) -> Limits {
        Limits { first_tag, ..self }
    }

    /// With so many tags at most, from 1 on.
    pub const fn tags(self, tags: u32) -> Limits {
        Limits { tags, ..self }
    }

    /// With so many places in the first page of a shard: 1, 2, 4, 8, 16, 32 or 64. Each further page has twice as many, up to 4,096.
    pub const fn first_page(self, first_page: u32) -> Limits {
        Limits { first_page, ..self }
    }

    /// With places that are used so often before they are retired for good: from 1 on.
    pub const fn last_generation(self, last_generation: u32) -> Limits {
        Limits {
            last_generation,
            ..self
        }
    }

    /// A pool of these limits. It takes no memory before its first create.
    ///
    /// # Errors
    ///
    /// [`OpenError::Shape`] with the first field that is outside its limits.
    pub fn open<T: Clear>(self) -> Result<Pool<T>, OpenError> {
        if self.shards == 0 {
            return Err(OpenError::Shape(Field::Lanes));
        }
        if self.places == 0 {
            return Err(OpenError::Shape(Field::Places));
        }
        checked(self.segment_shape(0))?;
        let tags = match GREATEST_TAG + 1 - self.first_tag {
            _ if self.tags == 0 => return Err(OpenError::Shape(Field::Tag)),
            tags => tags.min(self.tags),
        };
        Ok(Pool::of(Limits { tags, ..self }))
    }

    /// How many shards there may be.
    pub(crate) fn most_shards(&self) -> usize {
        self.shards.min((self.tags * MOST_LANES) as usize)
    }

    /// The shape of a segment, by its number from 0 on.
    pub(crate) fn segment_shape(&self, number: u32) -> keybits::Shape {
        keybits::Shape {
            lanes: self.shards.min(MOST_LANES as usize) as u32,
            guests: 0,
            first_page: self.first_page,
            pages: self.pages,
            last_generation: self.last_generation,
            tag: self.first_tag.saturating_add(number),
        }
    }
}

impl Default for Limits {
    fn default() -> Limits {
        Limits::new()
    }
}

impl TryFrom<Shape> for Limits {
    type Error = OpenError;

    fn try_from(shape: Shape) -> Result<Limits, OpenError> {
        checked(keybits::Shape {
            lanes: shape.lanes,
            guests: 0,
            first_page: shape.first_page,
            pages: shape.pages,
            last_generation: shape.last_generation,
            tag: shape.tag,
        })?;
        Ok(Limits {
            shards: shape.lanes as usize,
            places: usize::MAX,
            first_tag: shape.tag,
            tags: 1,
            first_page: shape.first_page,
            pages: shape.pages,
            last_generation: shape.last_generation,
            is_fixed: true,
        })
    }
}

/// A shape within the proved pool's limits.
fn checked(shape: keybits::Shape) -> Result<(), OpenError> {
    shape.check_wide().map_err(|fault| {
        OpenError::Shape(match fault {
            ShapeFault::Lanes => Field::Lanes,
            ShapeFault::FirstPage => Field::FirstPage,
            ShapeFault::Pages => Field::Pages,
            ShapeFault::Generation => Field::LastGeneration,
            ShapeFault::Tag => Field::Tag,
        })
    })
}

impl<T: Clear> Pool<T> {
    /// A pool of fixed size. It takes no memory before its first create, and then page by page.
    ///
    /// # Errors
    ///
    /// [`OpenError::Shape`] with the first field that is outside its limits.
    ///
    /// ```
    /// use pardz::{Field, OpenError, Pool, Shape};
    ///
    /// let pool = Pool::<String>::open(Shape::default())?;
    /// let wrong = Pool::<String>::open(Shape { lanes: 65, ..Shape::default() });
    /// assert_eq!(wrong.err(), Some(OpenError::Shape(Field::Lanes)));
    /// # Ok::<(), OpenError>(())
    /// ```
    pub fn open(shape: Shape) -> Result<Pool<T>, OpenError> {
        Ok(Pool::of(shape.try_into()?))
    }
}
