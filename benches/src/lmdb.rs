//! LMDB as a store of the same events, through the few C functions that it takes.

use crate::others::Store;
use crate::work::Event;
use std::ffi::{c_char, c_int, c_uint, c_void, CString};
use std::path::Path;
use std::ptr::null_mut;

/// LMDB's pointer and length.
#[repr(C)]
struct Val {
    size: usize,
    data: *mut c_void,
}

/// LMDB's figures of a database.
#[repr(C)]
#[derive(Default)]
struct Stat {
    page: c_uint,
    depth: c_uint,
    branch: usize,
    leaf: usize,
    overflow: usize,
    entries: usize,
}

#[link(name = "lmdb")]
extern "C" {
    fn mdb_env_create(env: *mut *mut c_void) -> c_int;
    fn mdb_env_open(env: *mut c_void, path: *const c_char, flags: c_uint, mode: u32) -> c_int;
    fn mdb_env_stat(env: *mut c_void, stat: *mut Stat) -> c_int;
    fn mdb_env_close(env: *mut c_void);
    fn mdb_txn_begin(env: *mut c_void, parent: *mut c_void, flags: c_uint, txn: *mut *mut c_void) -> c_int;
    fn mdb_txn_commit(txn: *mut c_void) -> c_int;
    fn mdb_dbi_open(txn: *mut c_void, name: *const c_char, flags: c_uint, dbi: *mut c_uint) -> c_int;
    fn mdb_put(txn: *mut c_void, dbi: c_uint, key: *mut Val, data: *mut Val, flags: c_uint) -> c_int;
    fn mdb_del(txn: *mut c_void, dbi: c_uint, key: *mut Val, data: *mut Val) -> c_int;
    fn mdb_version(major: *mut c_int, minor: *mut c_int, patch: *mut c_int) -> *const c_char;
}

/// LMDB: keys of 4 bytes, most significant first, and values of 4 bytes.
pub struct Lmdb {
    env: *mut c_void,
    dbi: c_uint,
}

impl Lmdb {
    fn begin(&self) -> *mut c_void {
        let mut txn = null_mut();
        assert_eq!(unsafe { mdb_txn_begin(self.env, null_mut(), 0, &mut txn) }, 0);
        txn
    }

    pub fn open(folder: &Path) -> Lmdb {
        let name = CString::new(folder.to_str().unwrap()).unwrap();
        let mut s = Lmdb { env: null_mut(), dbi: 0 };
        unsafe {
            assert_eq!(mdb_env_create(&mut s.env), 0);
            assert_eq!(mdb_env_open(s.env, name.as_ptr(), 0, 0o600), 0);
            let txn = s.begin();
            assert_eq!(mdb_dbi_open(txn, std::ptr::null(), 0, &mut s.dbi), 0);
            assert_eq!(mdb_txn_commit(txn), 0);
        }
        s
    }
}

impl Store for Lmdb {
    fn transaction(&mut self, events: &[Event]) {
        let txn = self.begin();
        for event in events {
            let code = match *event {
                Event::Insert(key, value) => {
                    let (mut k, mut v) = (key.to_be_bytes(), value.to_be_bytes());
                    let mut key = Val { size: 4, data: k.as_mut_ptr().cast() };
                    let mut data = Val { size: 4, data: v.as_mut_ptr().cast() };
                    unsafe { mdb_put(txn, self.dbi, &mut key, &mut data, 0) }
                }
                Event::Delete(key) => {
                    let mut k = key.to_be_bytes();
                    let mut key = Val { size: 4, data: k.as_mut_ptr().cast() };
                    unsafe { mdb_del(txn, self.dbi, &mut key, null_mut()) }
                }
                Event::Measured => 0,
            };
            assert_eq!(code, 0);
        }
        assert_eq!(unsafe { mdb_txn_commit(txn) }, 0);
    }

    fn close(&mut self) {
        unsafe { mdb_env_close(self.env) }
    }

    fn about(&self) -> (String, u64) {
        let (mut major, mut minor, mut patch) = (0, 0, 0);
        let mut stat = Stat::default();
        unsafe {
            mdb_version(&mut major, &mut minor, &mut patch);
            mdb_env_stat(self.env, &mut stat);
        }
        (format!("LMDB {major}.{minor}.{patch}"), u64::from(stat.page))
    }
}
