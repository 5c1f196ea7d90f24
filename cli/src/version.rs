//! What is said of this tool and of the core in it.

pub const TOOL: &str = env!("CARGO_PKG_VERSION");
const KIT: &str = env!("JANOREMBE_KIT");
const ARCHIVE: &str = env!("JANOREMBE_ARCHIVE");

/// The kit that proved the archive, and the archive's SHA-256.
pub fn core() -> String {
    format!("{KIT} sha256 {ARCHIVE}")
}

pub fn text() -> String {
    format!("janorembe {TOOL}\nproved by: {KIT}\narchive, SHA-256: {ARCHIVE}")
}
