//! Document 01's worked examples, through the typed calls.

use blenkysnow::{check, house, Accepted, Counts, Edit, Kind, Node, Refusal, Room, Tree};

const M: u32 = 1;
const OPENS: u32 = 2;
const CLOSES: u32 = 3;

fn read(codes: &[u32]) -> Accepted {
    Room::new().read_afresh(&house(), codes, 1).unwrap()
}

fn update(old: &Tree, edits: &[(u32, u32, u32)], put: &[u32]) -> Accepted {
    let edits: Vec<Edit> =
        edits.iter().map(|&(place, removed, put_in)| Edit { place, removed, put_in }).collect();
    Room::new().update(&house(), old, &edits, put).unwrap()
}

fn numbers(tree: &Tree) -> Vec<u32> {
    tree.nodes().map(|node| node.number).collect()
}

fn counts(
    left_breaks: u32,
    right_breaks: u32,
    whole_shifts: u32,
    token_shifts: u32,
    reductions: u32,
) -> Counts {
    Counts { left_breaks, right_breaks, whole_shifts, token_shifts, reductions }
}

#[test]
fn the_house_table_is_taken() {
    assert_eq!(check(&house()), Ok(()));
    assert_eq!(house()[..9], *b"LRT\x00\x01\x04\x03\x05\x07");
}

#[test]
fn nothing() {
    assert_eq!(read(&[]).tree.words(), [1, 2, 257, 1, 1]);
}

#[test]
fn one_m() {
    let read = read(&[M]);
    assert_eq!(read.tree.words(), [4, 5, 257, 1, 1, 1, 2, 1, 259, 3, 2, 258, 4, 4]);
    assert_eq!(read.counts, counts(0, 0, 0, 1, 3));
}

#[test]
fn two_ms_and_an_empty_group() {
    let two = read(&[M, M]).tree;
    assert_eq!((two.count(), two.next_number()), (7, 8));
    let group = read(&[OPENS, CLOSES]).tree;
    assert_eq!((group.count(), group.next_number()), (6, 7));
    let entry = group.find(5).unwrap();
    assert_eq!(group.node(entry), Node { kind: Kind::Production(4), number: 5, size: 4 });
}

#[test]
fn no_text_of_the_grammar() {
    let mut room = Room::new();
    assert_eq!(room.read_afresh(&house(), &[CLOSES], 1), Err(Refusal::NoAction { place: 0 }));
    assert_eq!(room.read_afresh(&house(), &[OPENS, M], 1), Err(Refusal::NoAction { place: 2 }));
}

#[test]
fn no_edits() {
    let old = read(&[M]).tree;
    let new = update(&old, &[], &[]);
    assert_eq!(new.tree, old);
    assert_eq!(new.counts, counts(1, 1, 1, 0, 3));
}

#[test]
fn an_m_put_in_behind_an_m() {
    let new = update(&read(&[M]).tree, &[(1, 0, 1)], &[M]);
    assert_eq!((numbers(&new.tree), new.tree.next_number()), (vec![1, 2, 3, 4, 5, 6, 7], 8));
    assert_eq!(new.counts, counts(1, 1, 1, 1, 5));
}

#[test]
fn the_first_of_two_removed() {
    let new = update(&read(&[M, M]).tree, &[(0, 1, 0)], &[]);
    assert_eq!(new.tree.words(), [4, 10, 257, 8, 1, 1, 5, 1, 259, 6, 2, 258, 9, 4]);
}

#[test]
fn an_m_replaced_by_another() {
    let new = update(&read(&[M]).tree, &[(0, 1, 1)], &[M]);
    assert_eq!(numbers(&new.tree), [5, 6, 7, 8]);
}

#[test]
fn an_m_put_into_a_group() {
    let new = update(&read(&[OPENS, CLOSES]).tree, &[(1, 0, 1)], &[M]);
    assert_eq!(
        (numbers(&new.tree), new.tree.next_number()),
        (vec![7, 2, 8, 9, 10, 11, 4, 12, 13], 14)
    );
}

#[test]
fn at_the_limits() {
    let mut room = Room::new();
    assert_eq!(room.read_afresh(&house(), &[M; 682], 1).unwrap().tree.count(), 2047);
    assert_eq!(room.read_afresh(&house(), &[M; 683], 1), Err(Refusal::NoRoom));
    assert_eq!(room.read_afresh(&house(), &[M], 4294967291).unwrap().tree.next_number(), u32::MAX);
    assert_eq!(room.read_afresh(&house(), &[M], 4294967292), Err(Refusal::NoNumber));
}

#[test]
fn children_and_text() {
    let tree = read(&[M, OPENS, M, M, CLOSES]).tree;
    assert_eq!(tree.text(), [M, OPENS, M, M, CLOSES]);
    let root = tree.count() - 1;
    let below: Vec<u32> = tree.children(root).iter().map(|&i| tree.node(i).number).collect();
    assert_eq!(below, [4, 14]);
    let group: Vec<u32> =
        tree.children(tree.find(14).unwrap()).iter().map(|&i| tree.node(i).number).collect();
    assert_eq!(group, [5, 12, 13]);
    assert_eq!(tree.children(tree.find(5).unwrap()), []);
    assert_eq!(tree.find(16), None);
}
