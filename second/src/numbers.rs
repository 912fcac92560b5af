//! Kept numbers: which new pieces equal which old ones, and the numbers that all new nodes get.
//!
//! Equal pieces have the same kinds and tokens place by place in written order, and kinds in
//! written order fix the shape. So a new piece and the old piece that it equals differ only by a
//! shift of places, and the shift of a piece with tokens is that of its tokens.

use crate::tree::{children, piece_begin, Node, OldTree};

/// The number of each new node, and the new next number; `None` where that is beyond 32 bits.
pub fn numbers_for(new: &[Node], old: &OldTree) -> Option<(Vec<u32>, u32)> {
    let kept = kept_numbers(new, old);
    let added = kept.iter().filter(|number| number.is_none()).count();
    let next_number = old.next_number.checked_add(added as u32)?;
    let mut upward = old.next_number..next_number;
    let numbers = kept.into_iter().map(|number| number.or_else(|| upward.next()));
    let numbers: Option<Vec<u32>> = numbers.collect();
    Some((numbers?, next_number))
}

/// The numbers that stand: those of the largest new pieces that equal an old one.
fn kept_numbers(new: &[Node], old: &OldTree) -> Vec<Option<u32>> {
    let equals = equal_pieces(new, &old.nodes);
    let mut kept = vec![None; new.len()];
    // Going down the written order meets a parent before its children.
    let mut end = new.len();
    while end > 0 {
        let node = end - 1;
        let Some(equal) = equals[node] else {
            end -= 1;
            continue;
        };
        end = piece_begin(new, node);
        let old_numbers = &old.numbers[equal + end - node..=equal];
        for (slot, &number) in kept[end..=node].iter_mut().zip(old_numbers) {
            *slot = Some(number);
        }
    }
    kept
}

/// For each new node, the old node whose piece its piece equals, among the pieces that count: those
/// with tokens and the whole tree.
fn equal_pieces(new: &[Node], old: &[Node]) -> Vec<Option<usize>> {
    let mut equals = Vec::with_capacity(new.len());
    for (place, node) in new.iter().enumerate() {
        let equal = match node.is_token() {
            true => node.old.map(|place| place as usize),
            false => equal_piece(new, old, place, &equals),
        };
        equals.push(equal);
    }
    let (last_new, last_old) = (new.len() - 1, old.len() - 1);
    if new[last_new].tokens == 0 && old[last_old].tokens == 0 {
        let same = new.len() == old.len() && same_kinds(new, old);
        equals[last_new] = same.then_some(last_old);
    }
    equals
}

/// The old node for a new one that is no token; `None` for one without tokens.
fn equal_piece(
    new: &[Node],
    old: &[Node],
    place: usize,
    equals: &[Option<usize>],
) -> Option<usize> {
    let shift = common_shift(new, place, equals)?;
    let equal = place.checked_add_signed(shift)?;
    if old.get(equal)?.kind != new[place].kind {
        return None;
    }
    let mut empty = children(new, place).filter(|&child| new[child].tokens == 0);
    let same = empty.all(|child| {
        let part = &new[piece_begin(new, child)..=child];
        let old_begin = piece_begin(new, child).checked_add_signed(shift);
        let old_part = old_begin.and_then(|begin| old.get(begin..begin + part.len()));
        old_part.is_some_and(|old_part| same_kinds(part, old_part))
    });
    same.then_some(equal)
}

/// The shift of places that all children with tokens share, if each equals an old piece.
fn common_shift(new: &[Node], place: usize, equals: &[Option<usize>]) -> Option<isize> {
    let mut common = None;
    for child in children(new, place).filter(|&child| new[child].tokens > 0) {
        let shift = equals[child]? as isize - child as isize;
        if *common.get_or_insert(shift) != shift {
            return None;
        }
    }
    common
}

fn same_kinds(new: &[Node], old: &[Node]) -> bool {
    new.iter().zip(old).all(|(one, other)| one.kind == other.kind)
}
