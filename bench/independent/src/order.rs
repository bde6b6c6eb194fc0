//! Which items can follow which in an image: the part of code 17 that goes by rows.
//!
//! "17 no image of a rule-meeting content begins here, place 5 plus the bytes of the most whole items that begin some
//! image", and "item places in version 2 count from 6". So items are taken one by one, and each is taken only if some
//! rule-meeting content has an image that begins with exactly the items taken so far and this one.
//!
//! An image doesn't say where a group ends. But every row has one parent, so the row of the next item does: the item
//! stands in the open group that is its parent, and all groups opened since are closed by it. It can be taken if
//!
//! * its parent is open, and each group that it closes is complete as it stands (`Open::is_complete`), for
//!   nothing can be put into them any more; and
//! * the parent can have it next (`Open::admits`).
//!
//! That is needed, and it is enough: open groups can always be completed. Going from the innermost outwards, give each
//! the required children that it lacks, all of which come after its last child (those before it were asked for when the
//! last child was taken), a child if it has none yet, and row 48 if it ends in row 47. A new group is filled in the same
//! way; the list has 16 levels at most, so that comes to an end, and every leaf has some value.

use crate::list::{Kind, List, Row, RULE_FIRST, RULE_ROW, RULE_SECOND};

/// A group that is begun and not yet closed.
#[derive(Clone, Copy, Debug)]
struct Open {
    row: u8,
    /// The row of its last child; 0 while it has none.
    last: u8,
}

/// The groups that are open, outermost first. The outermost is no element: it is what holds the root, with row 0.
#[derive(Clone, Debug)]
pub struct Order {
    list: &'static List,
    open: Vec<Open>,
}

impl Order {
    /// Before the first item of an image of this list.
    pub fn start(list: &'static List) -> Order {
        Order { list, open: vec![Open { row: 0, last: 0 }] }
    }

    /// Takes an item of this row if it can come next, and says whether it could.
    pub fn take(&mut self, row: &Row) -> bool {
        let Some(parent) = self.open.iter().position(|group| group.row == row.parent) else {
            return false;
        };
        let closes_well = self.open[parent + 1..].iter().all(|group| group.is_complete(self.list));
        if !closes_well || !self.open[parent].admits(self.list, row) {
            return false;
        }
        self.open.truncate(parent + 1);
        self.open[parent].last = row.number;
        if !row.kind.is_leaf() {
            self.open.push(Open { row: row.number, last: 0 });
        }
        true
    }

    /// Whether the closing 0 can come next: it closes all groups.
    pub fn may_end(&self) -> bool {
        self.open.iter().all(|group| group.is_complete(self.list))
    }
}

impl Open {
    /// Whether the group meets the rules without another child: it has one, lacks no required one, and not 48 after 47.
    fn is_complete(&self, list: &List) -> bool {
        self.last != 0 && !self.lacks_between(list, self.last, u8::MAX) && !self.waits_for_second()
    }

    /// Whether the group can have this child next.
    fn admits(&self, list: &List, row: &Row) -> bool {
        if list.find(self.row).is_some_and(|group| group.kind == Kind::Choice) {
            return self.last == 0;
        }
        let in_order = row.number > self.last || (row.number == self.last && row.count.repeats);
        let both_or_none = self.row != RULE_ROW || self.waits_for_second() == (row.number == RULE_SECOND);
        in_order && !self.lacks_between(list, self.last, row.number) && both_or_none
    }

    /// Whether a required child has its place strictly between two rows. The children of a choice are not required.
    fn lacks_between(&self, list: &List, after: u8, before: u8) -> bool {
        list.children(self.row).any(|child| child.count.required && child.number > after && child.number < before)
    }

    /// "rows 47 and 48 are both present or both absent": after 47 only 48 can come, and 48 only there.
    fn waits_for_second(&self) -> bool {
        self.row == RULE_ROW && self.last == RULE_FIRST
    }
}
