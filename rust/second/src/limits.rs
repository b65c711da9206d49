//! Every limit, once: those of document 01 as the requests of document 02 have moved them, and the buffers of the
//! programs that are this project's own.

/// Bytes of a sheet.
pub const SHEET_BYTES: usize = 65_536;

/// Permissions of a sheet; at least one.
pub const PERMISSIONS: usize = 128;

/// Users of a sheet; at least one.
pub const USERS: usize = 256;

/// Bytes of a name; at least one.
pub const NAME_BYTES: usize = 16;

/// Grants of a sheet.
pub const GRANTS: usize = 2_048;

/// Kernel grants up to which a search makes steps.
pub const SEARCHED_KERNEL: usize = 128;

/// Roles of a book that the checker reads.
pub const ROLES: usize = 128;

/// Bytes of a book that the checker reads.
pub const BOOK_BYTES: usize = 131_072;

/// Bytes of the buffer that the book program lends; a longer book is refused.
pub const PROGRAM_BUFFER_BYTES: usize = 65_536;

/// Bytes of the buffer that the search program lends; no book of a session is longer.
pub const SEARCH_BUFFER_BYTES: usize = 131_072;

/// Bytes of the buffer that the newcomer program lends; no newcomer's book is longer.
pub const JOIN_BUFFER_BYTES: usize = 131_072;

/// Bytes of a buffer that a script of calls may lend.
pub const SCRIPT_BUFFER_BYTES: usize = 262_144;
