//! The version of the library, and whether it fits this crate.

use crate::raw::Library;
use core::sync::atomic::{AtomicBool, Ordering::Relaxed};

/// Returns the version of the header that the library was built for: major, minor and patch number.
/// It never panics.
#[must_use]
pub fn version() -> (u32, u32, u32) {
    let number = Library::galliumtoad_version();
    (number / 0x10000, number / 0x100 % 0x100, number % 0x100)
}

/// Whether the library fits this crate: major and minor number are the same. A library that
/// `GALLIUMTOAD_LIB_DIR` names may be another.
///
/// Every call of this crate that needs the library, except this one and [`version`], panics if this
/// is `false`.
#[must_use]
pub fn version_fits() -> bool {
    let own = (
        env!("CARGO_PKG_VERSION_MAJOR"),
        env!("CARGO_PKG_VERSION_MINOR"),
    );
    let (major, minor, _) = version();
    own.0.parse() == Ok(major) && own.1.parse() == Ok(minor)
}

/// Checks whether the library fits this crate, until it does once; if not, every call panics.
pub(crate) fn look() {
    static FITS: AtomicBool = AtomicBool::new(false);
    if !FITS.load(Relaxed) {
        let (own, (major, minor, patch)) = (env!("CARGO_PKG_VERSION"), version());
        assert!(
            version_fits(),
            "the library is galliumtoad {major}.{minor}.{patch}, and the crate is {own}"
        );
        FITS.store(true, Relaxed);
    }
}
