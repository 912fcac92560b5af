//! Each refusal through the typed calls and over lent rows, with its number and place, and what the rows hold after it.

use blenkysnow::{check, house, rows, Edit, Refusal, Room, TableRefusal, ROOM_WORDS, TREE_WORDS};

const M: u32 = 1;
const CLOSES: u32 = 3;

/// The house table with one byte or more changed.
fn changed(at: usize, bytes: &[u8]) -> Vec<u8> {
    let mut table = house().to_vec();
    table[at..at + bytes.len()].copy_from_slice(bytes);
    table
}

#[test]
fn tables() {
    assert_eq!(check(&[]), Err(TableRefusal::Layout));
    assert_eq!(check(&changed(0, b"X")), Err(TableRefusal::Layout));
    assert_eq!(check(&changed(9, &[1])), Err(TableRefusal::Grammar));
    let broken = check(&changed(61, &[0, 0])).unwrap_err();
    assert_eq!(broken, TableRefusal::States { condition: 4, state: 0 });
    assert_eq!(broken.number(), 4);
    assert_eq!(broken.to_string(), "refusal 4: state condition 4 is broken at state 0");
}

#[test]
fn readings() {
    let mut room = Room::new();
    let mut refused =
        |table: &[u8], codes: &[u32], first| room.read_afresh(table, codes, first).unwrap_err();
    assert_eq!(refused(&[], &[M], 1), Refusal::Layout);
    assert_eq!(refused(&changed(9, &[1]), &[M], 1), Refusal::Grammar);
    assert_eq!(refused(&changed(61, &[0, 0]), &[M], 1), Refusal::States);
    assert_eq!(refused(&house(), &[4], 1), Refusal::Text);
    assert_eq!(refused(&house(), &[M; 2049], 1), Refusal::Text);
    assert_eq!(refused(&house(), &[M], 0), Refusal::Text);
    let seven = refused(&house(), &[M, CLOSES], 1);
    assert_eq!((seven.number(), seven.place()), (7, 1));
    assert_eq!(seven.to_string(), "refusal 7 at 1: no text of the grammar goes on so");
}

#[test]
fn updates() {
    let mut room = Room::new();
    let old = room.read_afresh(&house(), &[M, M], 1).unwrap().tree;
    let mut refused = |edits: &[(u32, u32, u32)], put: &[u32]| {
        let edits: Vec<Edit> =
            edits.iter().map(|&(place, removed, put_in)| Edit { place, removed, put_in }).collect();
        room.update(&house(), &old, &edits, put).unwrap_err()
    };
    assert_eq!(refused(&[(1, 2, 0)], &[]), Refusal::Text, "removed past the end");
    assert_eq!(refused(&[(1, 0, 1)], &[]), Refusal::Text, "codes do not suffice");
    assert_eq!(refused(&[], &[M]), Refusal::Text, "codes are left over");
    assert_eq!(refused(&[(1, 1, 0), (1, 0, 1)], &[M]), Refusal::Text, "places overlap");
    assert_eq!(refused(&[(u32::MAX, 2, 0)], &[]), Refusal::Text, "no sum wraps");
    assert_eq!(refused(&[(2, 0, 1)], &[CLOSES]), Refusal::NoAction { place: 2 });
    let long = vec![M; 700];
    assert_eq!(refused(&[(0, 0, 700)], &long), Refusal::NoRoom);
}

#[test]
fn numbers_run_out() {
    let mut room = Room::new();
    let old = room.read_afresh(&house(), &[M], u32::MAX - 4).unwrap().tree;
    assert_eq!(old.next_number(), u32::MAX);
    let edits = [Edit { place: 1, removed: 0, put_in: 1 }];
    assert_eq!(room.update(&house(), &old, &edits, &[M]).unwrap_err(), Refusal::NoNumber);
    assert_eq!(room.update(&house(), &old, &[], &[]).unwrap().tree, old, "no new number is needed");
}

#[test]
fn lent_rows() {
    let (mut tree, mut room) = (vec![7; TREE_WORDS + 3], vec![9; ROOM_WORDS + 3]);
    let small = rows::read_afresh(&house(), &[M], 1, &mut tree[..TREE_WORDS - 1], &mut room);
    assert_eq!(small, Err(Refusal::Small));
    let small = rows::read_afresh(&house(), &[M], 1, &mut tree, &mut room[..ROOM_WORDS - 1]);
    assert_eq!(small, Err(Refusal::Small));
    assert!(tree.iter().all(|&w| w == 7) && room.iter().all(|&w| w == 9), "both as lent");

    assert_eq!(
        rows::read_afresh(&house(), &[CLOSES], 1, &mut tree, &mut room),
        Err(Refusal::NoAction { place: 0 })
    );
    assert!(tree.iter().all(|&w| w == 7), "the tree as lent");
    assert!(room[..ROOM_WORDS].iter().all(|&w| w == 0) && room[ROOM_WORDS..] == [9; 3]);

    assert!(rows::read_afresh(&house(), &[M], 1, &mut tree, &mut room).is_ok());
    assert!(tree[14..].iter().all(|&w| w == 7), "2 + 3n words and no more");
}

#[test]
fn rows_from_elsewhere() {
    let (mut tree, mut room) = (vec![0; TREE_WORDS], vec![0; ROOM_WORDS]);
    let mut update = |old: &[u32], edits: &[u32]| {
        rows::update_words(&house(), old, edits, &[], &mut tree, &mut room)
    };
    let m = [4, 5, 257, 1, 1, 1, 2, 1, 259, 3, 2, 258, 4, 4];
    assert!(update(&m, &[]).is_ok());
    assert_eq!(update(&[], &[]), Err(Refusal::OldTree));
    assert_eq!(update(&m[..13], &[]), Err(Refusal::OldTree));
    assert_eq!(
        update(&[4, 4, 257, 1, 1, 1, 2, 1, 259, 3, 2, 258, 4, 4], &[]),
        Err(Refusal::OldTree)
    );
    assert_eq!(update(&m, &[0, 1]), Err(Refusal::Text), "a part of an edit at the end");
}
