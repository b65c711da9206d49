//! The causes to refuse a call, with the number of each.

/// A cause; the number is that of document 01, or of the request of document 02 that adds it. Of several causes a call
/// answers the first in its own order of checks, and that need not be the lowest: a writing is judged by 10, 16 and 11, and
/// a newcomer by 11 after all else.
#[derive(Clone, Copy, Debug, PartialEq, Eq, PartialOrd, Ord, Hash)]
pub enum Refusal {
    /// The sheet has too many bytes.
    SheetLength = 1,
    /// The sheet is empty, does not end in a line feed, or has a byte that is not allowed.
    SheetBytes = 2,
    /// The first field is not `user`, or the first line names too few or too many permissions.
    FirstLine = 3,
    /// There are no or too many user lines.
    UserLines = 4,
    /// A name is empty or too long.
    NameLength = 5,
    /// A line has another field count than the first.
    FieldCount = 6,
    /// A field after a user name is neither `0` nor `1`.
    FieldValue = 7,
    /// Two users or two permissions have one name.
    NameTwice = 8,
    /// There are too many grants.
    GrantCount = 9,
    /// A reduction, a search or a writing came before any accepted sheet.
    NoSheet = 10,
    /// The lent buffer is shorter than the book.
    BufferLength = 11,
    /// The book is too long or not of the form, or names a witness that the sheet does not know.
    BookForm = 12,
    /// The counts of the book disagree.
    BookCounts = 13,
    /// The product of the book's two matrices is not the sheet.
    BookProduct = 14,
    /// A witness grant is not held, or two of them fit.
    BookWitness = 15,
    /// A search or a writing came while the sheet was not yet reduced.
    NotReduced = 16,
    /// The newcomer's name is that of a user of the sheet.
    NameTaken = 17,
    /// A newcomer came where there were as many users already as there can be.
    UsersFull = 18,
    /// A newcomer would need a role more than there can be.
    RolesFull = 19,
}

impl Refusal {
    /// In the order of their numbers.
    pub const ALL: [Refusal; 19] = [
        Refusal::SheetLength,
        Refusal::SheetBytes,
        Refusal::FirstLine,
        Refusal::UserLines,
        Refusal::NameLength,
        Refusal::FieldCount,
        Refusal::FieldValue,
        Refusal::NameTwice,
        Refusal::GrantCount,
        Refusal::NoSheet,
        Refusal::BufferLength,
        Refusal::BookForm,
        Refusal::BookCounts,
        Refusal::BookProduct,
        Refusal::BookWitness,
        Refusal::NotReduced,
        Refusal::NameTaken,
        Refusal::UsersFull,
        Refusal::RolesFull,
    ];

    /// The cause that has this number.
    pub fn with_number(number: usize) -> Option<Refusal> {
        Refusal::ALL.into_iter().find(|refusal| refusal.number() as usize == number)
    }

    /// The number that a refused call returns.
    pub fn number(self) -> u32 {
        self as u32
    }
}
