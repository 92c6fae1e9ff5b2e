//! Stands for the crate rocksdb: a store in memory, with the names that the Rust's store uses.

use crate::recorder::{self, Seen};
use std::collections::HashMap;
use std::fmt;
use std::sync::Mutex;

#[derive(Debug, Clone, PartialEq)]
pub struct Error;

impl fmt::Display for Error {
    fn fmt(&self, f: &mut fmt::Formatter) -> fmt::Result {
        f.write_str("store error")
    }
}

impl std::error::Error for Error {}

pub struct DB(Mutex<HashMap<Vec<u8>, Vec<u8>>>);

impl DB {
    pub fn open_default(_path: &str) -> Result<DB, Error> {
        Ok(DB(Mutex::new(HashMap::new())))
    }

    pub fn put(&self, key: &[u8], value: &[u8]) -> Result<(), Error> {
        recorder::push(Seen::Put(key.to_vec(), value.to_vec()));
        let mut map = self.0.lock().map_err(|_| Error)?;
        map.insert(key.to_vec(), value.to_vec());
        Ok(())
    }

    pub fn get(&self, key: &[u8]) -> Result<Option<Vec<u8>>, Error> {
        let map = self.0.lock().map_err(|_| Error)?;
        Ok(map.get(key).cloned())
    }
}
