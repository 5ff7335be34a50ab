//! Which archive is linked.
use crate::ffi;

/// The version of the archive that is linked, as major, minor and patch. The build takes none whose
/// major or minor are not the crate's; the patch may be another one where `TIGLOSTREMA_LIB_DIR` names
/// an archive of another time.
///
/// ```
/// let (major, minor, patch) = tiglostrema::version();
/// println!("painted by tiglostrema {major}.{minor}.{patch}");
/// ```
#[must_use]
pub fn version() -> (u8, u8, u8) {
    // SAFETY: the function takes nothing and reads no memory.
    let number = unsafe { ffi::tiglostrema_version() };
    let [_, major, minor, patch] = number.to_be_bytes();
    (major, minor, patch)
}

#[cfg(test)]
mod tests {
    #[test]
    fn the_archive_is_of_the_crate_s_version() {
        let (major, minor, patch) = super::version();
        let words = format!("{major}.{minor}.{patch}");
        assert_eq!(words, env!("CARGO_PKG_VERSION"));
    }
}
