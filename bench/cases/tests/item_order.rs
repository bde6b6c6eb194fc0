//! The order of items in an image against the list as a regular expression.
//!
//! Without values, the images of rule-meeting contents are sequences of rows, and the house list says which: a regular
//! expression over rows. Its derivative by a row is the expression for all that may follow that row (Brzozowski, 1964), so
//! rows begin some image exactly if their derivative is not the expression for nothing. The reader keeps a stack of open
//! groups instead; here both go the same ways.

use std::rc::Rc;

use cases::random::Random;
use cases::runs::{items_of, put_together, FRONTS};
use independent::list::{Kind, List, Row, LISTS, RULE_FIRST, RULE_SECOND};
use independent::order::Order;

/// Which sequences of rows there are.
#[derive(Clone, PartialEq, Debug)]
enum Rows {
    /// No sequence at all.
    Nothing,
    /// The empty sequence.
    Empty,
    One(u8),
    Then(Rc<Rows>, Rc<Rows>),
    Either(Rc<Rows>, Rc<Rows>),
    Repeated(Rc<Rows>),
    /// All but the empty sequence.
    NotEmpty(Rc<Rows>),
}

use Rows::{Either, Empty, NotEmpty, Nothing, One, Repeated, Then};

/// One after the other.
fn then(first: Rows, second: Rows) -> Rows {
    match (first, second) {
        (Nothing, _) | (_, Nothing) => Nothing,
        (Empty, rows) | (rows, Empty) => rows,
        (first, second) => Then(first.into(), second.into()),
    }
}

fn either(first: Rows, second: Rows) -> Rows {
    match (first, second) {
        (Nothing, rows) | (rows, Nothing) => rows,
        (first, second) if first == second => first,
        (first, second) => Either(first.into(), second.into()),
    }
}

impl Rows {
    fn has_empty(&self) -> bool {
        match self {
            Nothing | One(_) | NotEmpty(_) => false,
            Empty | Repeated(_) => true,
            Then(first, second) => first.has_empty() && second.has_empty(),
            Either(first, second) => first.has_empty() || second.has_empty(),
        }
    }

    /// What may follow this row, where it comes first.
    fn after(&self, row: u8) -> Rows {
        match self {
            Nothing | Empty => Nothing,
            One(only) if *only == row => Empty,
            One(_) => Nothing,
            Then(first, second) => {
                let inside = then(first.after(row), (**second).clone());
                if first.has_empty() {
                    either(inside, second.after(row))
                } else {
                    inside
                }
            }
            Either(first, second) => either(first.after(row), second.after(row)),
            Repeated(rows) => then(rows.after(row), self.clone()),
            NotEmpty(rows) => rows.after(row),
        }
    }
}

/// The sequences of an element of this row: the row, and for a group what its children give.
fn element(list: &List, row: &Row) -> Rows {
    let children = list.children(row.number);
    match row.kind {
        Kind::Choice => then(One(row.number), children.map(|child| element(list, child)).fold(Nothing, either)),
        Kind::Group => {
            let inside = children.map(|child| counted(list, child)).fold(Empty, then);
            // "Every group has at least one child element."
            then(One(row.number), NotEmpty(inside.into()))
        }
        _ => One(row.number),
    }
}

/// A child with its count. "Rows 47 and 48 are both present or both absent": they count as one pair.
fn counted(list: &List, row: &Row) -> Rows {
    let one = match row.number {
        RULE_FIRST => then(element(list, row), element(list, list.find(RULE_SECOND).unwrap())),
        RULE_SECOND => return Empty,
        _ => element(list, row),
    };
    match (row.count.required, row.count.repeats) {
        (true, false) => one,
        (false, false) => either(Empty, one),
        (true, true) => then(one.clone(), Repeated(one.into())),
        (false, true) => Repeated(one.into()),
    }
}

impl Rows {
    /// A shortest sequence of these, if there is one.
    fn shortest(&self, list: &List) -> Option<Vec<u8>> {
        match self {
            Nothing => None,
            Empty | Repeated(_) => Some(Vec::new()),
            One(row) => Some(vec![*row]),
            Then(first, second) => Some([first.shortest(list)?, second.shortest(list)?].concat()),
            Either(first, second) => {
                [first.shortest(list), second.shortest(list)].into_iter().flatten().min_by_key(|rows| rows.len())
            }
            // A group whose children are all optional: any of them will do.
            NotEmpty(rows) => rows.shortest(list).filter(|shortest| !shortest.is_empty()).or_else(|| {
                let begins = |row: &Row| Some([vec![row.number], rows.after(row.number).shortest(list)?].concat());
                list.rows.iter().filter_map(begins).min_by_key(|rows| rows.len())
            }),
        }
    }
}

/// Some item of each row, by row.
fn some_items(list: &List) -> Vec<Vec<u8>> {
    items_of(list, &list.rows.iter().map(|row| row.number).collect::<Vec<u8>>())
}

/// "the most whole items that begin some image": every beginning is completed by the expression, and read; and every row
/// that can't come next stops the reader there. In each version, for each kind: items begin at 5, "item places in version 2 count
/// from 6".
#[test]
fn beginnings_are_completed_and_nothing_else_is_taken() {
    for ((front, list), start) in FRONTS.into_iter().zip([5, 6, 6]) {
        beginnings(front, list, start);
    }
}

fn beginnings(front: &[u8], list: &List, start: usize) {
    let items = some_items(list);
    let bytes = |rows: &[u8]| rows.iter().flat_map(|row| items[usize::from(*row) - 1].clone()).collect::<Vec<u8>>();
    let run = |rows: &[u8]| put_together(front, &[bytes(rows)]);
    let mut random = Random::new(18);
    for _ in 0..150 {
        let mut rows = element(list, list.root());
        let mut taken = Vec::new();
        for _ in 0..random.between(1, 60) {
            let next: Vec<&Row> = list.rows.iter().filter(|row| rows.after(row.number) != Nothing).collect();
            if next.is_empty() {
                break;
            }
            let row = next[random.below(next.len())];
            rows = rows.after(row.number);
            taken.push(row.number);
        }
        let whole = run(&[&taken[..], &rows.shortest(list).expect("a completion")].concat());
        let answer = independent::read(&whole);
        assert_eq!((answer.code.number(), answer.place), (0, whole.len()), "{taken:?}");
        for row in list.rows {
            let answer = independent::read(&run(&[&taken[..], &[row.number]].concat()));
            if rows.after(row.number) == Nothing {
                let expected = (17, start + bytes(&taken).len());
                // The closing 0 isn't reached: the reader stops at the item before it.
                assert_eq!((answer.code.number(), answer.place), expected, "{taken:?} {}", row.number);
            } else {
                assert!(answer.place > start + bytes(&taken).len(), "{taken:?} {}", row.number);
            }
        }
    }
}

#[test]
fn the_stack_and_the_expression_go_the_same_ways() {
    LISTS.into_iter().for_each(same_ways);
}

fn same_ways(list: &'static List) {
    let mut random = Random::new(17);
    let (mut steps, mut ends) = (0, 0);
    for _ in 0..300 {
        let mut rows = element(list, list.root());
        let mut order = Order::start(list);
        for _ in 0..random.between(1, 150) {
            let mut next = Vec::new();
            for row in list.rows {
                let by_stack = order.clone().take(row);
                let by_expression = rows.after(row.number) != Nothing;
                assert_eq!(by_stack, by_expression, "row {} after {order:?}", row.number);
                if by_stack {
                    next.push(row);
                }
            }
            assert_eq!(order.may_end(), rows.has_empty(), "the end after {order:?}");
            ends += usize::from(order.may_end());
            if next.is_empty() {
                break;
            }
            let row = next[random.below(next.len())];
            assert!(order.take(row));
            rows = rows.after(row.number);
            steps += 1;
        }
    }
    assert!(steps > 10_000 && ends > 1000, "{steps} steps, {ends} ends");
}
