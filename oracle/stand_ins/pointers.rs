//! Stand-in for pointers.rs: the names that util.rs and example_codes.rs use. No compared call reaches them.
use std::sync::{Arc, RwLock, RwLockReadGuard, RwLockWriteGuard, Weak};

pub struct ArcRwLock<T>(Arc<RwLock<T>>);

impl<T> ArcRwLock<T> {
    pub fn new_value(value: T) -> Self {
        Self(Arc::new(RwLock::new(value)))
    }
    pub fn read_recursive(&self) -> RwLockReadGuard<'_, T> {
        self.0.read().unwrap()
    }
    pub fn write(&self) -> RwLockWriteGuard<'_, T> {
        self.0.write().unwrap()
    }
}

impl<T> Clone for ArcRwLock<T> {
    fn clone(&self) -> Self {
        Self(self.0.clone())
    }
}

pub struct WeakRwLock<T>(Weak<RwLock<T>>);

impl<T> WeakRwLock<T> {
    pub fn upgrade_force(&self) -> ArcRwLock<T> {
        ArcRwLock(self.0.upgrade().unwrap())
    }
}

impl<T> Clone for WeakRwLock<T> {
    fn clone(&self) -> Self {
        Self(self.0.clone())
    }
}

pub type ArcManualSafeLock<T> = ArcRwLock<T>;
pub type WeakManualSafeLock<T> = WeakRwLock<T>;
