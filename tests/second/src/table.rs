//! Tables that are made when they are first used.

use std::cell::UnsafeCell;
use std::ops::Deref;
use std::sync::Once;

/// What `make` gives, made once.
pub struct Table<T> {
    made: Once,
    table: UnsafeCell<Option<T>>,
    make: fn() -> T,
}

// the table is written once, before anybody reads it
unsafe impl<T: Send + Sync> Sync for Table<T> {}

impl<T> Table<T> {
    pub const fn new(make: fn() -> T) -> Table<T> {
        Table {
            made: Once::new(),
            table: UnsafeCell::new(None),
            make,
        }
    }
}

impl<T> Deref for Table<T> {
    type Target = T;

    fn deref(&self) -> &T {
        self.made.call_once(|| {
            let table = (self.make)();
            // nobody else is here, and nobody reads before this has ended
            unsafe { *self.table.get() = Some(table) }
        });
        match unsafe { &*self.table.get() } {
            Some(table) => table,
            None => unreachable!("a table is there once it has been made"),
        }
    }
}
