//! What calls answer where they can't do what was asked.
use crate::page::Unopened;
use crate::registry::Wanted;
use std::error::Error;
use std::{fmt, io};

/// Why a pool isn't opened.
#[derive(Clone, Copy, Debug, PartialEq, Eq)]
#[non_exhaustive]
pub enum OpenError {
    /// This field of the shape, or of the limits, is the first that is outside its own limits.
    Shape(Field),
}

/// A field of a [`Shape`](crate::Shape) or of [`Limits`](crate::Limits).
#[derive(Clone, Copy, Debug, PartialEq, Eq)]
#[non_exhaustive]
pub enum Field {
    /// How many lanes, or shards.
    Lanes,
    /// The places of a shard's first page.
    FirstPage,
    /// The pages of a shard.
    Pages,
    /// The last generation.
    LastGeneration,
    /// The tag, or the number of tags.
    Tag,
    /// How many places.
    Places,
}

/// Why no filling is begun, or nothing is put into a pool.
///
/// ```
/// # use pardz::{CreateError, OpenError, Pool, Shape};
/// # let pool = Pool::<String>::open(Shape { lanes: 1, first_page: 1, pages: 1, ..Shape::default() })?;
/// let key = pool.put("the one place").expect("free");
/// match pool.put("more") {
///     Ok(_) => unreachable!("no place is free"),
///     Err(CreateError::Full) => println!("clear something first"),
///     Err(error) => panic!("{error}"),
/// }
/// # Ok::<(), OpenError>(())
/// ```
// (A whole word, so that a result is moved by words.)
#[derive(Clone, Copy, Debug, PartialEq, Eq)]
#[non_exhaustive]
#[repr(usize)]
pub enum CreateError {
    /// No place is free in the thread's own shards, or the lane's, and there is no further shard with one that nobody has.
    Full,
    /// Memory was refused.
    Memory,
    /// The thread has no shard, or a lane was asked for, and each shard that the pool may have is another's.
    NoLane,
}

impl CreateError {
    /// For who has a shard already.
    pub(crate) fn full(self) -> CreateError {
        match self {
            CreateError::NoLane => CreateError::Full,
            error => error,
        }
    }
}

impl Unopened {
    /// Which further shards are to be looked at, if memory wasn't refused: those with places, once the pool may open no more.
    pub(crate) fn wanted(self, before: Wanted) -> Result<Wanted, CreateError> {
        match self {
            Unopened::NoPage => Ok(before),
            Unopened::NoPlaces => Ok(Wanted::Places),
            Unopened::Memory => Err(CreateError::Memory),
        }
    }

    /// For who needs the page.
    pub(crate) fn refusal(self) -> CreateError {
        match self {
            Unopened::Memory => CreateError::Memory,
            Unopened::NoPage | Unopened::NoPlaces => CreateError::Full,
        }
    }
}

/// Why a get can't look, or a reference isn't cloned. Nothing is changed.
#[derive(Clone, Copy, Debug, PartialEq, Eq)]
#[non_exhaustive]
pub enum GetError {
    /// There are 268,435,456 references to the object, the most.
    References,
}

impl GetError {
    /// For calls that panic where they can't look.
    #[inline(always)]
    pub(crate) fn raised<V>(result: Result<V, GetError>) -> V {
        match result {
            Ok(value) => value,
            Err(error) => error.raise(),
        }
    }

    #[cold]
    #[inline(never)]
    fn raise(self) -> ! {
        panic!("{self}")
    }
}

/// Memory was refused. What was to grow is as it was.
#[derive(Clone, Copy, Debug, PartialEq, Eq)]
pub struct MemoryRefused;

/// Why a text or a number is no [`Key`](crate::Key).
#[derive(Clone, Copy, Debug, PartialEq, Eq)]
pub struct KeyError;

impl fmt::Display for OpenError {
    fn fmt(&self, f: &mut fmt::Formatter<'_>) -> fmt::Result {
        let OpenError::Shape(field) = self;
        f.write_str(match field {
            Field::Lanes => "the number of lanes is outside its limits",
            Field::FirstPage => "the size of the first page is not 1, 2, 4, 8, 16, 32 or 64",
            Field::Pages => "the number of pages is not from 1 to 16",
            Field::LastGeneration => "the last generation is 0",
            Field::Tag => "the tag is over 255, or there is none",
            Field::Places => "the most places are 0",
        })
    }
}

impl fmt::Display for CreateError {
    fn fmt(&self, f: &mut fmt::Formatter<'_>) -> fmt::Result {
        f.write_str(match self {
            CreateError::Full => "no place is free",
            CreateError::Memory => "memory was refused",
            CreateError::NoLane => "all shards of the pool are others'",
        })
    }
}

impl fmt::Display for GetError {
    fn fmt(&self, f: &mut fmt::Formatter<'_>) -> fmt::Result {
        f.write_str(match self {
            GetError::References => "there are 268,435,456 references to the object",
        })
    }
}

impl fmt::Display for MemoryRefused {
    fn fmt(&self, f: &mut fmt::Formatter<'_>) -> fmt::Result {
        f.write_str("memory was refused")
    }
}

impl fmt::Display for KeyError {
    fn fmt(&self, f: &mut fmt::Formatter<'_>) -> fmt::Result {
        f.write_str("a key is a number from 1 to 18446744073709551615")
    }
}

impl Error for OpenError {}
impl Error for CreateError {}
impl Error for GetError {}
impl Error for MemoryRefused {}
impl Error for KeyError {}

impl From<MemoryRefused> for CreateError {
    fn from(_: MemoryRefused) -> CreateError {
        CreateError::Memory
    }
}

impl From<CreateError> for io::Error {
    fn from(error: CreateError) -> io::Error {
        match error {
            CreateError::Full | CreateError::NoLane => io::Error::other(error),
            CreateError::Memory => io::ErrorKind::OutOfMemory.into(),
        }
    }
}

impl From<MemoryRefused> for io::Error {
    fn from(_: MemoryRefused) -> io::Error {
        io::ErrorKind::OutOfMemory.into()
    }
}

impl From<MemoryRefused> for fmt::Error {
    fn from(_: MemoryRefused) -> fmt::Error {
        fmt::Error
    }
}
