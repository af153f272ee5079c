// Made from crates/keybits/src/shape.rt by tools/erase/erase.py: change that file, not this one.

//! Shapes of pools: their limits, and the places that they have.

/// The most lanes of a shape of the wide limits.
pub const MOST_LANES: u32 = 64;

/// The most places that the first page of a checked shape has.
pub const LARGEST_FIRST_PAGE: u32 = 64;

/// The most pages of a shape of the wide limits.
pub const MOST_PAGES: u32 = 16;

/// The most places of a page, which a slot's bits in a key have room for.
pub const MOST_PAGE_PLACES: u32 = 4096;

/// The greatest tag of a checked shape.
pub const GREATEST_TAG: u32 = 255;

/// How large a pool is. Its limits are the narrow ones of `Shape::check` for scripts and histories, and the wide ones of
/// `Shape::check_wide` for a running pool. A checked shape is one that is within the wide limits.
#[derive(Clone, Copy, Debug, PartialEq, Eq)]
pub struct Shape {
    /// How many lanes there are; lane i owns shard i.
    pub lanes: u32,
    /// How many places the first page of a shard has. Each further page is twice as large as the one before, up to 4096
    /// places.
    pub first_page: u32,
    /// How many pages a shard has.
    pub pages: u32,
    /// The generation after which a place retires.
    pub last_generation: u32,
    /// The pool's tag, which each of its keys carries.
    pub tag: u32,
    /// How many guests there are: callers that own no shard. Their numbers follow those of the lanes.
    pub guests: u32,
}

/// What is wrong with a shape: the first of its fields, in this order, that is outside its limits. Its numbers and its
/// text are those of the narrow limits.
#[derive(Clone, Copy, Debug, PartialEq, Eq)]
pub enum ShapeFault {
    /// The lanes are not from 1 to 16.
    Lanes,
    /// The first page has not 1, 2, 4, 8, 16, 32 or 64 places.
    FirstPage,
    /// The pages are not from 1 to 6.
    Pages,
    /// The last generation is 0.
    Generation,
    /// The tag is over 255.
    Tag,
}

impl Shape {
    /// Tests the fields as `check` does, by the wide limits: the lanes are from 1 to 64 and the pages from 1 to 16.
    #[inline]
    pub fn check_wide(&self) -> Result<(), ShapeFault> {
        self.check_within(MOST_LANES, MOST_PAGES)
    }

    /// Tests the fields, where there may be so many lanes and pages.
    #[inline]
    fn check_within(&self, most_lanes: u32, most_pages: u32) -> Result<(), ShapeFault> {
        if self.lanes == 0 || self.lanes > most_lanes {
            return Err(ShapeFault::Lanes);
        }
        if !is_first_page(self.first_page) {
            return Err(ShapeFault::FirstPage);
        }
        if self.pages == 0 || self.pages > most_pages {
            return Err(ShapeFault::Pages);
        }
        if self.last_generation == 0 {
            return Err(ShapeFault::Generation);
        }
        if self.tag > GREATEST_TAG {
            return Err(ShapeFault::Tag);
        }
        Ok(())
    }

    /// How many places a page of a checked shape has.
    #[inline]
    pub fn page_size(&self, page: u32) -> u32 {
        (self.first_page << page).min(MOST_PAGE_PLACES)
    }

    /// How many places each shard of a checked shape has.
    #[inline]
    pub fn shard_places(&self) -> u32 {
        self.places_before(self.pages)
    }

    /// How many places of a shard of a checked shape come before a page.
    #[inline]
    fn places_before(&self, page: u32) -> u32 {
        let size = self.first_page << page;
        if size <= MOST_PAGE_PLACES {
            size - self.first_page
        } else {
            (page + self.first_page.ilog2() - 11) * MOST_PAGE_PLACES - self.first_page
        }
    }
}

/// Whether a first page may have this size.
#[inline]
fn is_first_page(size: u32) -> bool {
    size <= LARGEST_FIRST_PAGE && size.is_power_of_two()
}
