//! The search machine in place. For each class it keeps the grants that do not fit all its members, so that one
//! bit says whether a grant can join; what that was before a grant joined is kept until it is taken back.

use second::limits::{PERMISSIONS, SEARCHED_KERNEL, USERS};
use second::machine::Steps;

use crate::cover::Placement;
use crate::kernel::Kernel;
use crate::sets::{Users, WORD_BITS};
use crate::sheet::{Sheet, permission_of, user_of};

/// A set of kernel grants.
type Grants = [u64; SEARCHED_KERNEL / WORD_BITS];

/// Room for a class more than a placement can have.
const CLASSES: usize = PERMISSIONS + 1;

/// How many grants are placed, the next class to try, and how many classes are in use.
#[derive(Clone, Copy, Debug)]
struct Cursor {
    depth: usize,
    next_try: usize,
    used: usize,
}

/// Where the search stands. The best placement is kept beside it, since it may have more grants than are
/// searched.
#[derive(Clone, Debug)]
pub struct Machine {
    cursor: Cursor,
    pub finished: bool,
    /// The class count of a placement that meets the witness.
    target: usize,
    /// For each kernel grant, those that do not fit it.
    apart: [Grants; SEARCHED_KERNEL],
    /// For each class, the grants that do not fit all its members.
    barred: [Grants; CLASSES],
    classes: [u8; SEARCHED_KERNEL],
    /// What was barred from the class of a placed grant before it joined.
    former: [Grants; SEARCHED_KERNEL],
    /// Whether a placed grant opened its class.
    opened: [bool; SEARCHED_KERNEL],
}

const START: Cursor = Cursor { depth: 0, next_try: 0, used: 0 };

impl Machine {
    pub fn none() -> Machine {
        Machine {
            cursor: START,
            finished: true,
            target: 0,
            apart: [[0; 2]; SEARCHED_KERNEL],
            barred: [[0; 2]; CLASSES],
            classes: [0; SEARCHED_KERNEL],
            former: [[0; 2]; SEARCHED_KERNEL],
            opened: [false; SEARCHED_KERNEL],
        }
    }

    /// Starts with a first best placement; the witness has this many grants of the kernel.
    pub fn start(&mut self, sheet: &Sheet, kernel: &Kernel, best: &Placement, target: usize) {
        self.cursor = START;
        self.target = target;
        self.finished = best.count == target;
        self.barred = [[0; 2]; CLASSES];
        if kernel.count <= SEARCHED_KERNEL && !self.finished {
            self.find_apart(sheet, kernel);
        }
    }

    /// The grants that fit one are those in its row that are also in its column.
    fn find_apart(&mut self, sheet: &Sheet, kernel: &Kernel) {
        let mut of_permission = [[0; 2]; PERMISSIONS];
        let mut of_user = [[0; 2]; USERS];
        let mut users = Users::NONE;
        for (number, cell) in kernel.cells().iter().enumerate() {
            let bit = 1 << (number % WORD_BITS);
            of_permission[permission_of(*cell)][number / WORD_BITS] |= bit;
            of_user[user_of(*cell)][number / WORD_BITS] |= bit;
            users.add(user_of(*cell));
        }
        let in_row =
            |user: usize| sheet.rows[user].iter().fold([0; 2], |all, own| or(all, of_permission[own]));
        let in_column = |permission: usize| {
            sheet.columns[permission].and(users).iter().fold([0; 2], |all, own| or(all, of_user[own]))
        };
        let mut columns = [[0; 2]; PERMISSIONS];
        for (permission, column) in columns.iter_mut().enumerate().take(sheet.permissions.count()) {
            *column = in_column(permission);
        }
        let mut row = (usize::MAX, [0; 2]);
        for (apart, cell) in self.apart.iter_mut().zip(kernel.cells()) {
            if user_of(*cell) != row.0 {
                row = (user_of(*cell), in_row(user_of(*cell)));
            }
            let column = columns[permission_of(*cell)];
            *apart = [!(row.1[0] & column[0]), !(row.1[1] & column[1])];
        }
    }

    /// Makes at most so many steps, and counts what they were.
    pub fn run(&mut self, size: usize, best: &mut Placement, budget: u32) -> Steps {
        if size > SEARCHED_KERNEL || self.finished {
            return Steps::default();
        }
        let mut cursor = self.cursor;
        let mut count = best.count;
        let mut steps = 0;
        let mut closed = 0;
        while steps < budget {
            steps += 1;
            if let Some(class) = self.class_for(cursor, size, count) {
                cursor = self.place(cursor, class);
                if cursor.depth == size {
                    count = cursor.used;
                    best.classes[..size].copy_from_slice(&self.classes[..size]);
                    if count == self.target {
                        self.finished = true;
                        break;
                    }
                }
            } else if cursor.depth == 0 {
                self.finished = true;
                closed = 1;
                break;
            } else {
                cursor = self.take_back(cursor);
            }
        }
        let counted = counted(steps, closed, self.cursor.depth, cursor.depth);
        self.cursor = cursor;
        best.count = count;
        counted
    }

    /// The lowest class left to try that the next grant can join and that stays below the best.
    #[inline(always)]
    fn class_for(&self, cursor: Cursor, size: usize, count: usize) -> Option<usize> {
        if cursor.depth == size || cursor.used >= count {
            return None;
        }
        let index = cursor.depth / WORD_BITS % 2;
        let end = (cursor.used + 1).min(count - 1);
        let mut class = cursor.next_try;
        while class < end {
            if self.barred[class][index] >> (cursor.depth % WORD_BITS) & 1 == 0 {
                return Some(class);
            }
            class += 1;
        }
        None
    }

    #[inline(always)]
    fn place(&mut self, cursor: Cursor, class: usize) -> Cursor {
        let depth = cursor.depth % SEARCHED_KERNEL;
        let is_new = class == cursor.used;
        self.former[depth] = self.barred[class];
        self.barred[class] = or(self.barred[class], self.apart[depth]);
        self.classes[depth] = class as u8;
        self.opened[depth] = is_new;
        Cursor { depth: cursor.depth + 1, next_try: 0, used: cursor.used + usize::from(is_new) }
    }

    #[inline(always)]
    fn take_back(&mut self, cursor: Cursor) -> Cursor {
        let depth = (cursor.depth - 1) % SEARCHED_KERNEL;
        let class = usize::from(self.classes[depth]);
        self.barred[class] = self.former[depth];
        Cursor { depth, next_try: class + 1, used: cursor.used - usize::from(self.opened[depth]) }
    }
}

/// What so many steps were, found from the depths before and after them, so that no step has to count: those that
/// placed a grant and those that took one back are all but the closing one, and they differ by the depth gained.
fn counted(made: u32, closed: u32, depth_before: usize, depth_after: usize) -> Steps {
    let moves = u64::from(made - closed);
    let placed = ((moves + depth_after as u64 - depth_before as u64) / 2) as u32;
    Steps { made, placed, taken_back: made - closed - placed, closed }
}

#[inline(always)]
fn or(some: Grants, other: Grants) -> Grants {
    [some[0] | other[0], some[1] | other[1]]
}
