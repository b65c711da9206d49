//! The worked sheet and the numbers of document 01, these as the requests of document 02 have moved them, as the trials
//! expect them. They are written down apart from the library's own on purpose: a limit that moves there must be noticed
//! here.

/// The sheet of the worked example.
pub const EXAMPLE: &str = "user,rec,id,map\nann,1,1,0\nbo,0,1,1\ncy,1,1,1\n";

pub const SHEET_BYTES: usize = 65_536;
pub const PERMISSIONS: usize = 128;
pub const USERS: usize = 256;
pub const NAME_BYTES: usize = 16;
pub const GRANTS: usize = 2_048;
pub const SEARCHED_KERNEL: usize = 128;
pub const ROLES: usize = 128;
pub const BOOK_BYTES: usize = 131_072;
pub const PROGRAM_BUFFER_BYTES: usize = 65_536;
