//! A newcomer in a book, stated over the lines of the book: their own line goes behind those of the users, and where a
//! role is put to the others, the line of it goes behind theirs, its name to the end of the users' heading, and a `0` to
//! the end of each user's line. No other line changes but the one with the counts.

use std::collections::BTreeSet;

use crate::draft::Draft;
use crate::paper;
use crate::restated::causes::causes;
use crate::restated::form::{spelled_as_in_the_sheet, verdict};
use crate::restated::spelling::place;

/// The book of the longer sheet, or the number of the refusal.
pub fn answer(sheet: &[u8], book: &[u8], line: &[u8], length: usize) -> Result<Vec<u8>, u32> {
    refused_by(causes(sheet).first().copied())?;
    refused_by(longer_cause(sheet, line))?;
    let draft = Draft::made_out(sheet);
    verdict(&draft, book)?;
    let (name, cells) = parts(line);
    refused_by(place(&draft.users, name.as_bytes()).map(|_| 17))?;
    refused_by((draft.users.len() == paper::USERS).then_some(18))?;
    let (roles, longer_book) = joined(&draft, book, name, &cells);
    refused_by((roles > paper::ROLES).then_some(19))?;
    refused_by((longer_book.len() > length).then_some(11))?;
    Ok(longer_book)
}

fn refused_by(cause: Option<u32>) -> Result<(), u32> {
    cause.map_or(Ok(()), Err)
}

/// The lowest number of the longer sheet, without those of its first line, of too many users and of names that are one.
fn longer_cause(sheet: &[u8], line: &[u8]) -> Option<u32> {
    let mut applying: BTreeSet<u32> = causes(&[sheet, line].concat());
    let line_feeds = line.iter().filter(|byte| **byte == b'\n').count();
    if line_feeds != 1 || !line.ends_with(b"\n") {
        applying.insert(2);
    }
    applying.into_iter().find(|number| ![3, 4, 8].contains(number))
}

/// The name and the cells of a user line that is as it has to be.
fn parts(line: &[u8]) -> (&str, Vec<&str>) {
    let text = str::from_utf8(line).expect("the line has been judged");
    let mut fields = text.trim_end().split(',');
    (fields.next().unwrap_or_default(), fields.collect())
}

/// The roles of the longer book, and the book.
fn joined(draft: &Draft, book: &[u8], name: &str, cells: &[&str]) -> (usize, Vec<u8>) {
    let spelled = spelled_as_in_the_sheet(draft, book);
    let text = str::from_utf8(&spelled).expect("the book has been judged");
    let mut blocks: Vec<Vec<String>> =
        text.split("\n\n").map(|block| block.lines().map(str::to_string).collect()).collect();
    let roles = blocks[1].len() - 1;
    let has: Vec<bool> = blocks[1][1..].iter().map(|role| opens_nothing_else(role, cells)).collect();
    let opened = |index: usize| (0..roles).any(|role| has[role] && cell(&blocks[1][role + 1], index) == "1");
    let left_over: Vec<bool> =
        cells.iter().enumerate().map(|(index, cell)| *cell == "1" && !opened(index)).collect();
    let mut own = format!("{name}{}", fields(&has));
    let gets_own_role = left_over.contains(&true);
    if gets_own_role {
        let role = format!("R{}", roles + 1);
        blocks[1].push(format!("{role}{}", fields(&left_over)));
        blocks[2][0] += &format!(",{role}");
        blocks[2][1..].iter_mut().for_each(|line| *line += ",0");
        own += ",1";
        blocks[0][1] = format!("{},{},open", roles + 1, blocks[3].len() - 1);
    }
    blocks[2].push(own);
    let texts: Vec<String> = blocks.iter().map(|lines| lines.join("\n") + "\n").collect();
    (roles + usize::from(gets_own_role), texts.join("\n").into_bytes())
}

/// Whether the newcomer's cell is 1 wherever the role's is.
fn opens_nothing_else(role: &str, cells: &[&str]) -> bool {
    cells.iter().enumerate().all(|(index, own)| cell(role, index) != "1" || *own == "1")
}

/// The cell with this index, behind the first field of the line.
fn cell(line: &str, index: usize) -> &str {
    line.split(',').nth(index + 1).expect("the book has been judged")
}

fn fields(cells: &[bool]) -> String {
    cells.iter().map(|cell| if *cell { ",1" } else { ",0" }).collect()
}
