//! Builds two indexes of a table while a second thread writes it, and compares them with the program's own list of the rows.
//!
//!     rustc -O --edition 2021 examples/rust/caller.rs -L lib -l static=sfbuild_c && ./caller     in a release; caller.out has what is printed
//!
//! `Table` wraps the library so that safe code can't call it wrongly. It may go from thread to thread, and `&mut` lets one call work on it at a time.
//! A refusal that isn't awaited ends the program, with its number as the status.
use std::collections::BTreeMap;
use std::ffi::c_void;
use std::sync::Mutex;
use std::thread::{self, ScopedJoinHandle};
use std::{process, ptr};

#[repr(C)]
#[derive(Clone, Copy, PartialEq, PartialOrd)]
pub struct Rid { page: u32, slot: u16 }
#[repr(C)]
struct Cause { index: usize, number: u64, rid: Rid }
#[repr(C)]
struct Raw { at: *mut c_void, opened: bool, cause: Cause }

extern "C" {
    fn sfbuild_open(table: *mut Raw, kinds: *const u8, columns: usize, slots_a_page: u8, pages: u32) -> u8;
    fn sfbuild_close(table: *mut Raw) -> u8;
    fn sfbuild_begin(table: *mut Raw, txn: *mut u64) -> u8;
    fn sfbuild_insert(table: *mut Raw, txn: u64, row: *const u8, length: usize, at: *mut Rid) -> u8;
    fn sfbuild_update(table: *mut Raw, txn: u64, at: Rid, row: *const u8, length: usize) -> u8;
    fn sfbuild_delete(table: *mut Raw, txn: u64, at: Rid) -> u8;
    fn sfbuild_commit(table: *mut Raw, txn: u64) -> u8;
    fn sfbuild_undo(table: *mut Raw, txn: u64, left: *mut usize) -> u8;
    fn sfbuild_get(table: *mut Raw, at: Rid, row: *mut u8, room: usize, length: *mut usize) -> u8;
    fn sfbuild_start(table: *mut Raw, indexes: *const u8, length: usize, workers: usize, ranges: usize, quota: usize, pages: *mut u32) -> u8;
    fn sfbuild_step(table: *mut Raw, most: usize, ready: *mut bool) -> u8;
    fn sfbuild_next(table: *mut Raw, index: usize, past: bool, key: *mut u8, room: usize, length: *mut usize, rid: *mut Rid) -> u8;
}

const END: u8 = 3;
const FENCED: u8 = 27;
const BUSY: u8 = 50;

/// What was refused, by its number.
type Done<T> = Result<T, u8>;

fn done<T>(told: u8, value: T) -> Done<T> {
    if told == 0 { Ok(value) } else { Err(told) }
}

/// An open table.
pub struct Table(Raw);

// Nothing that a table owns belongs to a thread, which is proved of the library; and each call takes it by `&mut`, so that calls don't meet.
unsafe impl Send for Table {}

impl Drop for Table {
    fn drop(&mut self) {
        unsafe { sfbuild_close(&mut self.0) };
    }
}

impl Table {
    /// With columns of these kinds: 1 int, 2 text, 3 flag.
    pub fn open(kinds: &[u8], slots_a_page: u8, pages: u32) -> Done<Table> {
        let mut raw = Raw { at: ptr::null_mut(), opened: false, cause: Cause { index: 0, number: 0, rid: Rid { page: 0, slot: 0 } } };
        let told = unsafe { sfbuild_open(&mut raw, kinds.as_ptr(), kinds.len(), slots_a_page, pages) };
        done(told, Table(raw))
    }

    pub fn begin(&mut self) -> Done<u64> {
        let mut txn = 0;
        done(unsafe { sfbuild_begin(&mut self.0, &mut txn) }, txn)
    }

    pub fn insert(&mut self, txn: u64, row: &[u8]) -> Done<Rid> {
        let mut at = Rid { page: 0, slot: 0 };
        done(unsafe { sfbuild_insert(&mut self.0, txn, row.as_ptr(), row.len(), &mut at) }, at)
    }

    pub fn update(&mut self, txn: u64, at: Rid, row: &[u8]) -> Done<()> {
        done(unsafe { sfbuild_update(&mut self.0, txn, at, row.as_ptr(), row.len()) }, ())
    }

    pub fn delete(&mut self, txn: u64, at: Rid) -> Done<()> {
        done(unsafe { sfbuild_delete(&mut self.0, txn, at) }, ())
    }

    pub fn commit(&mut self, txn: u64) -> Done<()> {
        done(unsafe { sfbuild_commit(&mut self.0, txn) }, ())
    }

    /// Undoes the newest write, and tells how many are left.
    pub fn undo(&mut self, txn: u64) -> Done<usize> {
        let mut left = 0;
        done(unsafe { sfbuild_undo(&mut self.0, txn, &mut left) }, left)
    }

    pub fn get(&mut self, at: Rid) -> Done<Vec<u8>> {
        let (mut row, mut length) = ([0; 1224], 0);
        let told = unsafe { sfbuild_get(&mut self.0, at, row.as_mut_ptr(), row.len(), &mut length) };
        done(told, ()).map(|()| row[..length].to_vec())
    }

    pub fn start(&mut self, indexes: &[u8], workers: usize, ranges: usize, quota: usize) -> Done<u32> {
        let mut pages = 0;
        let told = unsafe { sfbuild_start(&mut self.0, indexes.as_ptr(), indexes.len(), workers, ranges, quota, &mut pages) };
        done(told, pages)
    }

    /// Does the next piece of the build, and tells whether it has switched.
    pub fn step(&mut self, most: usize) -> Done<bool> {
        let mut ready = false;
        done(unsafe { sfbuild_step(&mut self.0, most, &mut ready) }, ready)
    }

    /// The addresses in a ready index, in its order.
    pub fn addresses(&mut self, index: usize) -> Done<Vec<Rid>> {
        let (mut key, mut length, mut rid, mut found) = ([0; 812], 0, Rid { page: 0, slot: 0 }, Vec::new());
        loop {
            match unsafe { sfbuild_next(&mut self.0, index, !found.is_empty(), key.as_mut_ptr(), key.len(), &mut length, &mut rid) } {
                0 => found.push(rid),
                told => return if told == END { Ok(found) } else { Err(told) },
            }
        }
    }
}

fn row(id: i64, name: &str) -> Vec<u8> {
    [&[1], &id.to_be_bytes()[..], &[1, name.len() as u8], name.as_bytes()].concat()
}

/// The rows that stand, by id: the name and the address of each.
type List = BTreeMap<i64, (String, Rid)>;

/// Each third transaction is undone. Each call takes the lock for itself, so that the build goes on between them.
fn write(table: &Mutex<Table>, list: &mut List) -> Done<()> {
    for id in 400..500 {
        let mut begun = table.lock().unwrap().begin();
        while begun == Err(FENCED) {
            thread::yield_now();
            begun = table.lock().unwrap().begin();
        }
        let (txn, was) = (begun?, list.clone());
        list.insert(id, ("new".into(), table.lock().unwrap().insert(txn, &row(id, "new"))?));
        if let Some((name, at)) = list.get_mut(&(id - 400)) {
            *name = "changed".into();
            table.lock().unwrap().update(txn, *at, &row(id - 400, name))?;
        }
        if let Some((_, at)) = list.remove(&(id - 200)) {
            table.lock().unwrap().delete(txn, at)?;
        }
        if id % 3 == 0 {
            *list = was;
            while table.lock().unwrap().undo(txn)? > 0 {}
        } else {
            table.lock().unwrap().commit(txn)?;
        }
    }
    Ok(())
}

/// A unique index on the id, and one on the name and, from the greatest on, the id.
fn build<T>(table: &Mutex<Table>, writer: &ScopedJoinHandle<T>) -> Done<()> {
    table.lock().unwrap().start(&[1, 1, 0, 0, 0, 2, 1, 0, 0, 1], 2, 4, 64)?;
    loop {
        let has_ended = writer.is_finished();
        let told = table.lock().unwrap().step(64);
        match told {
            Ok(true) => return Ok(()),
            Ok(false) => thread::yield_now(),
            // It waits for a transaction that has written to end.
            Err(BUSY) if !has_ended => thread::yield_now(),
            Err(other) => return Err(other),
        }
    }
}

fn run() -> Done<()> {
    let mut table = Table::open(&[1, 2], 16, 1000)?;
    let mut list = List::new();
    let txn = table.begin()?;
    for id in 0..400 {
        let name = format!("name {}", id % 5);
        let at = table.insert(txn, &row(id, &name))?;
        list.insert(id, (name, at));
    }
    table.commit(txn)?;
    let table = Mutex::new(table);
    let (built, written) = thread::scope(|scope| {
        let writer = scope.spawn(|| write(&table, &mut list));
        (build(&table, &writer), writer.join().unwrap())
    });
    written.and(built)?;
    let mut table = table.into_inner().unwrap();
    let mut rows: Vec<_> = list.iter().map(|(id, (name, _))| (name, -id)).collect();
    let by_id: Vec<_> = list.iter().map(|(id, (name, _))| row(*id, name)).collect();
    rows.sort();
    let by_name: Vec<_> = rows.iter().map(|(name, id)| row(-id, name)).collect();
    for (index, wanted) in [by_id, by_name].into_iter().enumerate() {
        let found: Vec<_> = table.addresses(index)?.into_iter().map(|at| table.get(at)).collect::<Done<_>>()?;
        println!("index {index}: {} pairs, {}", found.len(), if found == wanted { "as in the list" } else { "not as in the list" });
    }
    Ok(())
}

fn main() {
    if let Err(told) = run() {
        eprintln!("caller: refused, {told}");
        process::exit(told.into());
    }
}
