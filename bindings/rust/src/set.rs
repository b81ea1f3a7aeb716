use crate::error::{done, done_or};
use crate::values::Bytes;
use crate::{c_path, sys, Error, Item, Key, Layout, Mode, Place, Record, Result, Statistics, Value};
use std::fmt;
use std::iter::FusedIterator;
use std::path::Path;
use std::ptr::{self, NonNull};

/// A set in a file. What a change returned is durable; a drop closes the file and ends the lock.
///
/// It can be sent to another thread, and is used by one at a time:
/// ```compile_fail,E0277
/// fn shared<T: Sync>() {}
/// shared::<orderset::Set>();
/// ```
pub struct Set {
    handle: NonNull<sys::Set>,
    wide: bool, // of layout 2
}

// SAFETY: a handle is bound to no thread. It is not Sync: also a get writes to it.
unsafe impl Send for Set {}

impl Set {
    /// Makes a file of an empty set with so many slots, 2 to 65,535: room for one open order less. A cut or a kill
    /// leaves the whole file or none.
    pub fn create(path: impl AsRef<Path>, slots: u32, layout: Layout) -> Result<()> {
        let path = c_path(path.as_ref())?;
        // SAFETY: a string that ends with a zero.
        done(unsafe { sys::orderset_create(path.as_ptr(), slots, layout as u32) })
    }

    /// Opens a file and recovers it.
    pub fn open(path: impl AsRef<Path>, mode: Mode) -> Result<Set> {
        let path = c_path(path.as_ref())?;
        let mut set = ptr::null_mut();
        // SAFETY: a string that ends with a zero, and the handle is written.
        done(unsafe { sys::orderset_open(path.as_ptr(), mode as u32, &mut set) })?;
        let handle = NonNull::new(set).expect("a file that was opened has a handle");
        // SAFETY: the handle is open.
        let wide = unsafe { sys::orderset_layout(set) } == Layout::Two as u32;
        Ok(Set { handle, wide })
    }

    // SAFETY of all calls below: the handle is open until the drop, &mut self or a Set that is not Sync keeps two calls
    // apart, slices are lent with their lengths, and what is written is a variable of the right type.

    /// Makes a new file with the open orders as they are now, with as many slots and in the same layout, whole and
    /// durable before it gets its name.
    pub fn snapshot(&self, path: impl AsRef<Path>) -> Result<()> {
        let path = c_path(path.as_ref())?;
        done(unsafe { sys::orderset_snapshot(self.handle.as_ptr(), path.as_ptr()) })
    }

    /// Gives the key, which is not held, the value.
    pub fn insert(&mut self, key: impl Into<Key>, value: &[u8]) -> Result<()> {
        let key = key.into().words();
        done(unsafe { sys::orderset_insert(self.handle.as_ptr(), key, value.as_ptr().cast(), value.len()) })
    }

    /// Gives the key, which is held, the value in the place of the one that it has.
    pub fn replace(&mut self, key: impl Into<Key>, value: &[u8]) -> Result<()> {
        let key = key.into().words();
        done(unsafe { sys::orderset_replace(self.handle.as_ptr(), key, value.as_ptr().cast(), value.len()) })
    }

    /// Drops the key; false where it was not held.
    pub fn remove(&mut self, key: impl Into<Key>) -> Result<bool> {
        let key = key.into().words();
        done_or(unsafe { sys::orderset_remove(self.handle.as_ptr(), key) }, sys::NOT_FOUND)
    }

    /// Changes 1 to 8 distinct keys, all or none.
    pub fn basket(&mut self, items: &[Item<'_>]) -> Result<()> {
        let none = sys::Item { kind: 0, key: Key::from(0u64).words(), value: ptr::null(), length: 0 };
        let mut lent = [none; sys::BASKET_MAX];
        for (place, item) in lent.iter_mut().zip(items) {
            *place = item.lent();
        }
        // more than there is room for is refused as none is
        let count = if items.len() > lent.len() { 0 } else { items.len() };
        done(unsafe { sys::orderset_basket(self.handle.as_ptr(), lent.as_ptr(), count) })
    }

    /// What the key holds.
    pub fn get(&self, key: impl Into<Key>) -> Result<Option<Value>> {
        let key = key.into().words();
        let (mut bytes, mut length) = ([0; sys::VALUE_MAX], 0);
        let number = unsafe {
            let output = bytes.as_mut_ptr().cast();
            sys::orderset_get(self.handle.as_ptr(), key, output, bytes.len(), &mut length)
        };
        Ok(done_or(number, sys::NOT_FOUND)?.then_some(Bytes { bytes, length: length.min(sys::VALUE_MAX) }))
    }

    /// Where the key stands.
    pub fn locate(&self, key: impl Into<Key>) -> Result<Option<Place>> {
        let key = key.into().words();
        let (mut slot, mut version) = (0, 0);
        let number = unsafe { sys::orderset_locate(self.handle.as_ptr(), key, &mut slot, &mut version) };
        Ok(done_or(number, sys::NOT_FOUND)?.then_some(Place { slot, version }))
    }

    /// Gives the key, which is not held, a sent order of the quantity.
    pub fn book_new(&mut self, key: impl Into<Key>, quantity: u64) -> Result<()> {
        let key = key.into().words();
        done(unsafe { sys::orderset_book_new(self.handle.as_ptr(), key, quantity) })
    }

    /// Makes the key's sent order an acknowledged one; false where it was that before.
    pub fn book_acknowledge(&mut self, key: impl Into<Key>) -> Result<bool> {
        let key = key.into().words();
        done_or(unsafe { sys::orderset_book_acknowledge(self.handle.as_ptr(), key) }, sys::ALREADY_ACKNOWLEDGED)
    }

    /// Adds the quantity to what is filled of the key's order; a fill of all that is open removes it.
    pub fn book_fill(&mut self, key: impl Into<Key>, quantity: u64) -> Result<()> {
        let key = key.into().words();
        done(unsafe { sys::orderset_book_fill(self.handle.as_ptr(), key, quantity) })
    }

    /// Removes the key's order.
    pub fn book_withdraw(&mut self, key: impl Into<Key>) -> Result<()> {
        let key = key.into().words();
        done(unsafe { sys::orderset_book_withdraw(self.handle.as_ptr(), key) })
    }

    /// The open orders by rising slot. The set is borrowed, so that nothing changes between two steps:
    /// ```compile_fail,E0502
    /// # fn drop_all(set: &mut orderset::Set) -> orderset::Result<()> {
    /// for order in set.orders()? {
    ///     set.remove(order.key)?;
    /// }
    /// # Ok(())
    /// # }
    /// ```
    pub fn orders(&self) -> Result<Orders<'_>> {
        let mut orders = Orders { set: self, at: sys::Record::NONE, refused: None };
        orders.step()?;
        Ok(orders)
    }

    /// What slot 1 to N holds, whatever its class.
    pub fn slot(&self, slot: u32) -> Result<Record> {
        let mut record = sys::Record::NONE;
        done(unsafe { sys::orderset_slot(self.handle.as_ptr(), slot, &mut record) })?;
        Ok(Record::of(&record, self.wide))
    }

    /// The slots that the last insert, replace, remove, get or locate compared.
    pub fn compared(&self) -> u32 {
        unsafe { sys::orderset_compared(self.handle.as_ptr()) }
    }

    /// The layout of the file; none where its header says neither.
    pub fn layout(&self) -> Option<Layout> {
        let layout = unsafe { sys::orderset_layout(self.handle.as_ptr()) };
        (layout != 0).then(|| Layout::of(layout))
    }

    /// The open orders. No slot is looked at.
    pub fn count(&self) -> u32 {
        unsafe { sys::orderset_count(self.handle.as_ptr()) }
    }

    /// For how many more orders there is room. No slot is looked at.
    pub fn room(&self) -> u32 {
        unsafe { sys::orderset_room(self.handle.as_ptr()) }
    }

    /// How the set stands. It looks at every slot.
    pub fn statistics(&self) -> Statistics {
        let mut statistics = sys::Statistics::default();
        unsafe { sys::orderset_stat(self.handle.as_ptr(), &mut statistics) };
        Statistics::of(&statistics)
    }
}

impl Drop for Set {
    fn drop(&mut self) {
        // SAFETY: no call follows.
        unsafe { sys::orderset_close(self.handle.as_ptr()) }
    }
}

impl fmt::Debug for Set {
    fn fmt(&self, f: &mut fmt::Formatter<'_>) -> fmt::Result {
        f.debug_struct("Set").finish_non_exhaustive()
    }
}

/// The open orders of a set: [`Set::orders`].
pub struct Orders<'a> {
    set: &'a Set,
    at: sys::Record, // the one to give next; its slot is 0 where there is none
    refused: Option<Error>,
}

impl Orders<'_> {
    /// Whether the iteration ended after the last order. It ends before that, with the error, where the file was
    /// overwritten by another program meanwhile: `for order in all.by_ref() { ... }`, then `all.result()?`.
    pub fn result(self) -> Result<()> {
        self.refused.map_or(Ok(()), Err)
    }

    fn step(&mut self) -> Result<bool> {
        // SAFETY: as in the calls of the set.
        done_or(unsafe { sys::orderset_next(self.set.handle.as_ptr(), &mut self.at) }, sys::END)
    }
}

impl Iterator for Orders<'_> {
    type Item = Record;

    fn next(&mut self) -> Option<Record> {
        if self.at.slot == 0 {
            return None;
        }
        let given = Record::of(&self.at, self.set.wide);
        if let Err(error) = self.step() {
            self.at = sys::Record::NONE;
            self.refused = Some(error);
        }
        Some(given)
    }
}

impl FusedIterator for Orders<'_> {}

impl fmt::Debug for Orders<'_> {
    fn fmt(&self, f: &mut fmt::Formatter<'_>) -> fmt::Result {
        f.debug_struct("Orders").finish_non_exhaustive()
    }
}
