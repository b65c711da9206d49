//! The smallest number of roles of a small sheet, found from the two matrices alone: nothing here knows of
//! grants, fit or reductions.
//!
//! A set of cells is a word with a bit for each cell. The product of two matrices is the union of their
//! roles' rectangles, a role's rectangle being its users times its permissions.

/// For every sheet of this size, at the place of its cells, the smallest number of roles. It takes every
/// sheet that has a role set with one role fewer and puts every possible role to it.
pub fn smallest_of_all(users: usize, permissions: usize) -> Vec<usize> {
    let rectangles = all_rectangles(users, permissions);
    let mut smallest = vec![usize::MAX; 1 << (users * permissions)];
    let mut reached = vec![0];
    smallest[0] = 0;
    for roles in 1.. {
        reached = with_one_role_more(&reached, &rectangles, &smallest);
        if reached.is_empty() {
            break;
        }
        for cells in &reached {
            smallest[*cells] = roles;
        }
    }
    smallest
}

fn with_one_role_more(reached: &[usize], rectangles: &[usize], smallest: &[usize]) -> Vec<usize> {
    let mut next: Vec<usize> = reached
        .iter()
        .flat_map(|cells| rectangles.iter().map(move |rectangle| cells | rectangle))
        .filter(|cells| smallest[*cells] == usize::MAX)
        .collect();
    next.sort_unstable();
    next.dedup();
    next
}

/// The rectangles of all roles: any users and any permissions.
fn all_rectangles(users: usize, permissions: usize) -> Vec<usize> {
    let roles = (0..1 << users).flat_map(|some| (0..1 << permissions).map(move |other| (some, other)));
    let cell = |user: usize, permission: usize| 1 << (user * permissions + permission);
    let has = |set: usize, member: usize| set >> member & 1 == 1;
    let rectangle = |(role_users, role_permissions): (usize, usize)| {
        (0..users)
            .filter(|user| has(role_users, *user))
            .flat_map(|user| (0..permissions).map(move |permission| (user, permission)))
            .filter(|(_, permission)| has(role_permissions, *permission))
            .map(|(user, permission)| cell(user, permission))
            .sum()
    };
    roles.map(rectangle).collect()
}

/// The smallest number of roles of this sheet, by trying 0 roles, then 1, and so on; for about six users and
/// permissions.
pub fn smallest(held: &[Vec<bool>]) -> usize {
    let sheet = Cells::of(held);
    (0..).find(|roles| sheet.can_be_opened(0, *roles)).expect("a role for each user is enough")
}

struct Cells {
    permissions: usize,
    rows: Vec<u64>,
    all: u64,
}

impl Cells {
    fn of(held: &[Vec<bool>]) -> Cells {
        let row = |cells: &Vec<bool>| {
            let ones = cells.iter().enumerate().filter(|(_, held)| **held);
            ones.map(|(permission, _)| 1 << permission).sum()
        };
        let permissions = held[0].len();
        let rows: Vec<u64> = held.iter().map(row).collect();
        let shifted = rows.iter().enumerate().map(|(user, row)| row << (user * permissions));
        Cells { permissions, all: shifted.sum(), rows }
    }

    /// Whether this many more roles open the cells that are not open yet. One of them opens the first such
    /// cell, so its permissions hold that cell's and are all held by that cell's user.
    fn can_be_opened(&self, open: u64, roles: usize) -> bool {
        let closed = self.all & !open;
        if closed == 0 || roles == 0 {
            return closed == 0;
        }
        let first = closed.trailing_zeros() as usize;
        let row = self.rows[first / self.permissions];
        let needed = 1 << (first % self.permissions);
        subsets(row & !needed).any(|more| self.can_be_opened(open | self.rectangle(needed | more), roles - 1))
    }

    /// A role may be given to everyone who holds all its permissions: that opens no cell that is not in the
    /// sheet.
    fn rectangle(&self, permissions: u64) -> u64 {
        let rows = self.rows.iter().enumerate();
        rows.filter(|(_, row)| permissions & !**row == 0)
            .map(|(user, _)| permissions << (user * self.permissions))
            .sum()
    }
}

/// All sets of bits that are within this one.
pub fn subsets(set: u64) -> impl Iterator<Item = u64> {
    let mut next = Some(set);
    std::iter::from_fn(move || {
        let current = next?;
        next = (current != 0).then(|| (current - 1) & set);
        Some(current)
    })
}
