//! Macros for the raw locks of `lock_api`, and for those of `parking_lot`.

/// Makes a module with parking_lot's `Mutex` and `RwLock`, and their guards, that tell what is done with them. The program has
/// `parking_lot` among its dependencies, with its feature `arc_lock` or without; this crate has none.
///
/// ```ignore
/// witness::parking_lot! { pub mod locks; }
/// use locks::{Mutex, RwLock};
/// ```
#[macro_export]
macro_rules! parking_lot {
    ($(#[$meta:meta])* $vis:vis mod $name:ident;) => {
        $(#[$meta])*
        #[allow(dead_code)]
        $vis mod $name {
            $crate::raw_mutex! {
                /// The raw mutex.
                pub struct RawMutex(::parking_lot::RawMutex): ::parking_lot::lock_api::RawMutex;
            }
            $crate::raw_rwlock! {
                /// The raw lock for readers and writers.
                pub struct RawRwLock(::parking_lot::RawRwLock): ::parking_lot::lock_api::RawRwLock;
            }
            pub type Mutex<T> = ::parking_lot::lock_api::Mutex<RawMutex, T>;
            pub type MutexGuard<'a, T> = ::parking_lot::lock_api::MutexGuard<'a, RawMutex, T>;
            pub type RwLock<T> = ::parking_lot::lock_api::RwLock<RawRwLock, T>;
            pub type RwLockReadGuard<'a, T> = ::parking_lot::lock_api::RwLockReadGuard<'a, RawRwLock, T>;
            pub type RwLockWriteGuard<'a, T> = ::parking_lot::lock_api::RwLockWriteGuard<'a, RawRwLock, T>;
        }
    };
}

/// Makes a type of a raw mutex, such as parking_lot's, that tells what is done with it. The trait is lock_api's, which
/// this crate doesn't depend on; so `lock_api::Mutex<Traced, T>` is a mutex with that one's signatures.
///
/// ```ignore
/// witness::raw_mutex! { pub struct Traced(parking_lot::RawMutex): lock_api::RawMutex; }
///
/// type Mutex<T> = lock_api::Mutex<Traced, T>;
/// ```
///
/// Since it is made of a constant, the place of a mutex's first use stands for its type.
#[macro_export]
macro_rules! raw_mutex {
    ($(#[$meta:meta])* $vis:vis struct $name:ident($raw:ty): $api:path;) => {
        $(#[$meta])*
        $vis struct $name {
            watched: $crate::Watched,
            raw: $raw,
        }

        unsafe impl $api for $name {
            #[allow(clippy::declare_interior_mutable_const)]
            const INIT: Self =
                $name { watched: $crate::Watched::unnamed($crate::Kind::Mutex), raw: <$raw as $api>::INIT };

            type GuardMarker = <$raw as $api>::GuardMarker;

            #[track_caller]
            #[inline]
            fn lock(&self) {
                self.watched.asked($crate::Mode::Exclusive);
                <$raw as $api>::lock(&self.raw);
                self.watched.acquired();
            }

            #[track_caller]
            #[inline]
            fn try_lock(&self) -> bool {
                let got = <$raw as $api>::try_lock(&self.raw);
                if got {
                    self.watched.tried($crate::Mode::Exclusive);
                }
                got
            }

            #[inline]
            unsafe fn unlock(&self) {
                self.watched.released();
                unsafe { <$raw as $api>::unlock(&self.raw) }
            }

            #[inline]
            fn is_locked(&self) -> bool {
                <$raw as $api>::is_locked(&self.raw)
            }
        }
    };
}

/// As [`raw_mutex!`], of a raw lock for readers and writers.
///
/// ```ignore
/// witness::raw_rwlock! { pub struct Traced(parking_lot::RawRwLock): lock_api::RawRwLock; }
/// ```
#[macro_export]
macro_rules! raw_rwlock {
    ($(#[$meta:meta])* $vis:vis struct $name:ident($raw:ty): $api:path;) => {
        $(#[$meta])*
        $vis struct $name {
            watched: $crate::Watched,
            raw: $raw,
        }

        unsafe impl $api for $name {
            #[allow(clippy::declare_interior_mutable_const)]
            const INIT: Self =
                $name { watched: $crate::Watched::unnamed($crate::Kind::RwLock), raw: <$raw as $api>::INIT };

            type GuardMarker = <$raw as $api>::GuardMarker;

            #[track_caller]
            #[inline]
            fn lock_shared(&self) {
                self.watched.asked($crate::Mode::Shared);
                <$raw as $api>::lock_shared(&self.raw);
                self.watched.acquired();
            }

            #[track_caller]
            #[inline]
            fn try_lock_shared(&self) -> bool {
                let got = <$raw as $api>::try_lock_shared(&self.raw);
                if got {
                    self.watched.tried($crate::Mode::Shared);
                }
                got
            }

            #[inline]
            unsafe fn unlock_shared(&self) {
                self.watched.released();
                unsafe { <$raw as $api>::unlock_shared(&self.raw) }
            }

            #[track_caller]
            #[inline]
            fn lock_exclusive(&self) {
                self.watched.asked($crate::Mode::Exclusive);
                <$raw as $api>::lock_exclusive(&self.raw);
                self.watched.acquired();
            }

            #[track_caller]
            #[inline]
            fn try_lock_exclusive(&self) -> bool {
                let got = <$raw as $api>::try_lock_exclusive(&self.raw);
                if got {
                    self.watched.tried($crate::Mode::Exclusive);
                }
                got
            }

            #[inline]
            unsafe fn unlock_exclusive(&self) {
                self.watched.released();
                unsafe { <$raw as $api>::unlock_exclusive(&self.raw) }
            }

            #[inline]
            fn is_locked(&self) -> bool {
                <$raw as $api>::is_locked(&self.raw)
            }

            #[inline]
            fn is_locked_exclusive(&self) -> bool {
                <$raw as $api>::is_locked_exclusive(&self.raw)
            }
        }
    };
}
