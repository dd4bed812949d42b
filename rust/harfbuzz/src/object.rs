//! What each object of the interface has: a count of references, whether it may be changed, and data of its users.
//!
//! An object is a box that C holds by its address. The last `destroy` frees it. The empty object of a type is made once, is
//! never freed, and takes no data and no change.

use crate::types::{hb_bool_t, hb_destroy_func_t, hb_user_data_key_t};
use std::ffi::c_void;
use std::sync::Mutex;
use std::sync::atomic::{AtomicBool, AtomicU32, Ordering};

/// A piece of data that a user hung on an object.
#[derive(Clone, Copy)]
struct UserData {
    key: *const hb_user_data_key_t,
    data: *mut c_void,
    destroy: hb_destroy_func_t,
}

impl UserData {
    fn release(self) {
        release(self.data, self.destroy);
    }
}

/// Calls the function, if there is one, by which a user takes data back.
pub fn release(data: *mut c_void, destroy: hb_destroy_func_t) {
    if let Some(destroy) = destroy {
        // SAFETY: the user passed the two together, for this one call.
        unsafe { destroy(data) }
    }
}

/// The part that all objects have.
pub struct Header {
    /// 0 in an empty object.
    references: AtomicU32,
    is_mutable: AtomicBool,
    user_data: Mutex<Vec<UserData>>,
}

// SAFETY: the addresses in `user_data` are handed on and never followed; a lock guards the list.
unsafe impl Send for Header {}
// SAFETY: as above.
unsafe impl Sync for Header {}

impl Header {
    /// That of an object with one reference, which may be changed.
    pub fn new() -> Self {
        Header { references: AtomicU32::new(1), is_mutable: AtomicBool::new(true), user_data: Mutex::default() }
    }

    /// That of the empty object of a type.
    pub fn of_empty() -> Self {
        Header { references: AtomicU32::new(0), is_mutable: AtomicBool::new(false), user_data: Mutex::default() }
    }

    fn is_empty_object(&self) -> bool {
        self.references.load(Ordering::Relaxed) == 0
    }

    pub fn is_immutable(&self) -> bool {
        !self.is_mutable.load(Ordering::Acquire)
    }

    pub fn make_immutable(&self) {
        self.is_mutable.store(false, Ordering::Release);
    }

    fn items(&self) -> std::sync::MutexGuard<'_, Vec<UserData>> {
        self.user_data.lock().unwrap_or_else(std::sync::PoisonError::into_inner)
    }

    fn set(&self, item: UserData, replaces: bool) -> bool {
        let replaced = {
            let mut items = self.items();
            let place = items.iter().position(|held| held.key == item.key);
            let removes = item.data.is_null() && item.destroy.is_none();
            match place {
                Some(_) if !replaces => return false,
                Some(place) if removes => Some(items.swap_remove(place)),
                Some(place) => Some(std::mem::replace(&mut items[place], item)),
                None if removes && replaces => None,
                None => {
                    items.push(item);
                    None
                }
            }
        };
        // Outside of the lock, since the user's function may ask this object.
        if let Some(item) = replaced {
            item.release();
        }
        true
    }

    fn get(&self, key: *const hb_user_data_key_t) -> *mut c_void {
        self.items().iter().find(|item| item.key == key).map_or(std::ptr::null_mut(), |item| item.data)
    }

    /// Gives the users' data back, the last first; the functions may hang on more.
    fn release_user_data(&self) {
        loop {
            let Some(item) = self.items().pop() else {
                return;
            };
            item.release();
        }
    }
}

/// A type of objects.
pub trait Object: Sized {
    fn header(&self) -> &Header;

    /// The address of the empty object.
    fn empty() -> *mut Self;
}

/// The address of an empty object, which is made once.
pub struct Empty<T>(std::sync::OnceLock<Address<T>>);

struct Address<T>(*mut T);

// SAFETY: an address alone; the object behind it is never changed.
unsafe impl<T> Send for Address<T> {}
// SAFETY: as above.
unsafe impl<T> Sync for Address<T> {}

impl<T> Empty<T> {
    pub const fn new() -> Self {
        Empty(std::sync::OnceLock::new())
    }

    pub fn get(&self, make: impl FnOnce() -> T) -> *mut T {
        self.0.get_or_init(|| Address(Box::into_raw(Box::new(make())))).0
    }
}

/// An object that C holds from now on.
pub fn given<T: Object>(object: T) -> *mut T {
    Box::into_raw(Box::new(object))
}

/// # Safety
///
/// `object` is null or an object that is alive.
pub unsafe fn reference<T: Object>(object: *mut T) -> *mut T {
    // SAFETY: the caller's word.
    if let Some(object) = unsafe { object.as_ref() }
        && !object.header().is_empty_object()
    {
        object.header().references.fetch_add(1, Ordering::Relaxed);
    }
    object
}

/// # Safety
///
/// `object` is null or an object that is alive, and the caller gives one of its references up.
pub unsafe fn destroy<T: Object>(object: *mut T) {
    // SAFETY: the caller's word.
    let Some(shared) = (unsafe { object.as_ref() }) else {
        return;
    };
    let header = shared.header();
    if header.is_empty_object() || header.references.fetch_sub(1, Ordering::AcqRel) != 1 {
        return;
    }
    header.release_user_data();
    // SAFETY: `given` made it of a box, and this was the last reference.
    drop(unsafe { Box::from_raw(object) });
}

/// # Safety
///
/// `object` is null or an object that is alive.
pub unsafe fn set_user_data<T: Object>(
    object: *mut T,
    key: *const hb_user_data_key_t,
    data: *mut c_void,
    destroy: hb_destroy_func_t,
    replaces: hb_bool_t,
) -> hb_bool_t {
    // SAFETY: the caller's word.
    match unsafe { object.as_ref() } {
        Some(object) if !object.header().is_empty_object() && !key.is_null() => {
            object.header().set(UserData { key, data, destroy }, replaces != 0).into()
        }
        _ => 0,
    }
}

/// # Safety
///
/// `object` is null or an object that is alive.
pub unsafe fn get_user_data<T: Object>(object: *const T, key: *const hb_user_data_key_t) -> *mut c_void {
    // SAFETY: the caller's word.
    unsafe { object.as_ref() }.map_or(std::ptr::null_mut(), |object| object.header().get(key))
}

/// The five calls that each type of objects has.
macro_rules! object_calls {
    ($type:ty: $empty:ident $reference:ident $destroy:ident $set:ident $get:ident) => {
        #[unsafe(no_mangle)]
        pub extern "C" fn $empty() -> *mut $type {
            <$type as $crate::object::Object>::empty()
        }

        #[unsafe(no_mangle)]
        pub unsafe extern "C" fn $reference(object: *mut $type) -> *mut $type {
            // SAFETY: HarfBuzz's terms: an object that is alive, or null.
            unsafe { $crate::object::reference(object) }
        }

        #[unsafe(no_mangle)]
        pub unsafe extern "C" fn $destroy(object: *mut $type) {
            // SAFETY: HarfBuzz's terms: an object of which the caller holds a reference, or null.
            unsafe { $crate::object::destroy(object) }
        }

        #[unsafe(no_mangle)]
        pub unsafe extern "C" fn $set(
            object: *mut $type,
            key: *const $crate::types::hb_user_data_key_t,
            data: *mut std::ffi::c_void,
            destroy: $crate::types::hb_destroy_func_t,
            replaces: $crate::types::hb_bool_t,
        ) -> $crate::types::hb_bool_t {
            // SAFETY: HarfBuzz's terms: an object that is alive, or null.
            unsafe { $crate::object::set_user_data(object, key, data, destroy, replaces) }
        }

        #[unsafe(no_mangle)]
        pub unsafe extern "C" fn $get(
            object: *const $type,
            key: *const $crate::types::hb_user_data_key_t,
        ) -> *mut std::ffi::c_void {
            // SAFETY: HarfBuzz's terms: an object that is alive, or null.
            unsafe { $crate::object::get_user_data(object, key) }
        }
    };
}
pub(crate) use object_calls;
