//! Families of sheets, random and structured.

use crate::draft::Draft;
use crate::paper;
use crate::random::Random;

/// Each user holds each permission with this chance in a hundred.
pub fn random(random: &mut Random, users: usize, permissions: usize, density: usize) -> Draft {
    let cells: Vec<Vec<bool>> =
        (0..users).map(|_| (0..permissions).map(|_| random.percent(density)).collect()).collect();
    Draft::plain(users, permissions, |user, permission| cells[user][permission])
}

/// Everyone lacks only their own permission.
pub fn crown(size: usize) -> Draft {
    Draft::plain(size, size, |user, permission| user != permission)
}

/// Each user holds as many permissions as the band is wide, from their own one on, around the end.
pub fn band(size: usize, width: usize) -> Draft {
    Draft::plain(size, size, |user, permission| (permission + size - user) % size < width)
}

/// Each user holds their own permission and all before it.
pub fn staircase(size: usize) -> Draft {
    Draft::plain(size, size, |user, permission| permission <= user)
}

/// Groups of users with permissions of their own, each group of this many users and permissions.
pub fn blocks(sizes: &[(usize, usize)]) -> Draft {
    let full = |size: &(usize, usize)| Draft::plain(size.0, size.1, |_, _| true);
    sizes.iter().map(full).reduce(|one, other| beside(&one, &other)).expect("there is a block")
}

/// One user holds everything, and everyone holds one permission.
pub fn star(users: usize, permissions: usize) -> Draft {
    Draft::plain(users, permissions, |user, permission| user == 0 || permission == 0)
}

/// Each user holds their own permission and any other one.
pub fn paired(random: &mut Random, size: usize) -> Draft {
    let others: Vec<usize> = (0..size).map(|user| (user + random.between(1, size - 1)) % size).collect();
    Draft::plain(size, size, |user, permission| permission == user || permission == others[user])
}

/// The same sheet behind so many permissions that nobody holds.
pub fn behind(permissions: usize, draft: &Draft) -> Draft {
    let all = permissions + draft.permissions.len();
    Draft::plain(draft.users.len(), all, |user, permission| {
        permission >= permissions && draft.held[user][permission - permissions]
    })
}

/// Two sheets in one: no user of the one holds a permission of the other.
pub fn beside(one: &Draft, other: &Draft) -> Draft {
    let (users, permissions) = (one.users.len(), one.permissions.len());
    Draft::plain(users + other.users.len(), permissions + other.permissions.len(), |user, permission| match (
        user < users,
        permission < permissions,
    ) {
        (true, true) => one.held[user][permission],
        (false, false) => other.held[user - users][permission - permissions],
        _ => false,
    })
}

/// The same sheet with this many users more, each a copy of one who is there.
pub fn with_copied_users(random: &mut Random, draft: &Draft, more: usize) -> Draft {
    let users = draft.users.len();
    let copied: Vec<usize> = (0..users).chain((0..more).map(|_| random.below(users))).collect();
    Draft::plain(copied.len(), draft.permissions.len(), |user, permission| {
        draft.held[copied[user]][permission]
    })
}

/// Users become permissions and permissions users.
pub fn turned(draft: &Draft) -> Draft {
    Draft::plain(draft.permissions.len(), draft.users.len(), |user, permission| draft.held[permission][user])
}

/// A sheet of some family, with at most about this many users and permissions, under names of any kind.
pub fn any(random: &mut Random, size: usize) -> Draft {
    let side = random.between(1, size);
    let other = random.between(1, size);
    let draft = match random.below(9) {
        0 => crown(side),
        1 => band(side, random.between(1, side)),
        2 => staircase(side),
        3 => star(side, other),
        4 => blocks(&[(side, other), (other, 1), (1, side)]),
        5 => {
            let half = random.between(1, side);
            let base = self::random(random, half, other, 50);
            let copied = with_copied_users(random, &base, side - half);
            turned(&copied)
        }
        6 => beside(&crown(side.div_ceil(2)), &self::random(random, other.div_ceil(2), side, 50)),
        _ => {
            let density = random.between(5, 95);
            self::random(random, side, other, density)
        }
    };
    draft.renamed(random)
}

/// A sheet of some family, with at most about this many users, with more permissions than a word has bits. Those put
/// to the family's own are held by nobody or copies of these, and all stand in any order.
pub fn any_wide(random: &mut Random, size: usize) -> Draft {
    let narrow = any(random, size);
    let own = narrow.permissions.len();
    let copies = *random.pick(&[0, 20, 100]);
    let more = random.between(65, paper::PERMISSIONS) - own;
    let mut places: Vec<Option<usize>> = (0..own).map(Some).collect();
    places.extend((0..more).map(|_| random.percent(copies).then(|| random.below(own))));
    random.shuffle(&mut places);
    let wide = Draft::plain(narrow.users.len(), places.len(), |user, permission| {
        places[permission].is_some_and(|place| narrow.held[user][place])
    });
    wide.renamed(random)
}
