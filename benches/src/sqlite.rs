//! SQLite as a store of the same events, through the few C functions that it takes.

use crate::others::Store;
use crate::work::Event;
use std::ffi::{c_char, c_int, c_void, CStr, CString};
use std::path::Path;
use std::ptr::null_mut;

#[link(name = "sqlite3")]
extern "C" {
    fn sqlite3_open(name: *const c_char, db: *mut *mut c_void) -> c_int;
    fn sqlite3_exec(db: *mut c_void, sql: *const c_char, call: *const c_void, arg: *mut c_void, message: *mut *mut c_char) -> c_int;
    fn sqlite3_prepare_v2(db: *mut c_void, sql: *const c_char, len: c_int, out: *mut *mut c_void, tail: *mut *const c_char) -> c_int;
    fn sqlite3_bind_int64(statement: *mut c_void, at: c_int, value: i64) -> c_int;
    fn sqlite3_step(statement: *mut c_void) -> c_int;
    fn sqlite3_reset(statement: *mut c_void) -> c_int;
    fn sqlite3_column_int64(statement: *mut c_void, at: c_int) -> i64;
    fn sqlite3_finalize(statement: *mut c_void) -> c_int;
    fn sqlite3_close(db: *mut c_void) -> c_int;
    fn sqlite3_libversion() -> *const c_char;
}

/// SQLite: a table with the key as its row number.
pub struct Sqlite {
    db: *mut c_void,
    insert: *mut c_void,
    delete: *mut c_void,
    page: u64,
}

impl Sqlite {
    fn exec(&self, sql: &str) {
        let text = CString::new(sql).unwrap();
        let code = unsafe { sqlite3_exec(self.db, text.as_ptr(), std::ptr::null(), null_mut(), null_mut()) };
        assert_eq!(code, 0, "{sql}");
    }

    fn prepare(&self, sql: &str) -> *mut c_void {
        let text = CString::new(sql).unwrap();
        let mut out = null_mut();
        let code = unsafe { sqlite3_prepare_v2(self.db, text.as_ptr(), -1, &mut out, null_mut()) };
        assert_eq!(code, 0, "{sql}");
        out
    }

    pub fn open(folder: &Path, mode: &str) -> Sqlite {
        let name = CString::new(folder.join("store.db").to_str().unwrap()).unwrap();
        let mut db = null_mut();
        assert_eq!(unsafe { sqlite3_open(name.as_ptr(), &mut db) }, 0);
        let mut s = Sqlite { db, insert: null_mut(), delete: null_mut(), page: 0 };
        s.exec(&format!("PRAGMA journal_mode={mode}"));
        s.exec("PRAGMA synchronous=FULL");
        s.exec("CREATE TABLE entries (key INTEGER PRIMARY KEY, value INTEGER)");
        s.insert = s.prepare("INSERT OR REPLACE INTO entries VALUES (?, ?)");
        s.delete = s.prepare("DELETE FROM entries WHERE key = ?");
        let size = s.prepare("PRAGMA page_size");
        assert_eq!(unsafe { sqlite3_step(size) }, 100);
        s.page = unsafe { sqlite3_column_int64(size, 0) } as u64;
        unsafe { sqlite3_finalize(size) };
        s
    }

    fn call(&self, statement: *mut c_void, numbers: &[u32]) {
        for (i, &n) in numbers.iter().enumerate() {
            assert_eq!(unsafe { sqlite3_bind_int64(statement, i as c_int + 1, i64::from(n)) }, 0);
        }
        assert_eq!(unsafe { sqlite3_step(statement) }, 101);
        unsafe { sqlite3_reset(statement) };
    }
}

impl Store for Sqlite {
    fn transaction(&mut self, events: &[Event]) {
        self.exec("BEGIN");
        for event in events {
            match *event {
                Event::Insert(key, value) => self.call(self.insert, &[key, value]),
                Event::Delete(key) => self.call(self.delete, &[key]),
                Event::Measured => {}
            }
        }
        self.exec("COMMIT");
    }

    fn close(&mut self) {
        unsafe {
            sqlite3_finalize(self.insert);
            sqlite3_finalize(self.delete);
            assert_eq!(sqlite3_close(self.db), 0);
        }
    }

    fn about(&self) -> (String, u64) {
        let version = unsafe { CStr::from_ptr(sqlite3_libversion()) };
        (format!("SQLite {}", version.to_str().unwrap()), self.page)
    }
}
