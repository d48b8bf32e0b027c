//! What a buffer holds at entry: contents of every kind, sound and damaged.

use crate::cases::chance::Chance;
use crate::cases::generate::{coordinate, Grain, GRAINS};

use super::call::Shape;

/// Coordinates of one grain.
pub fn of_grain(chance: &mut Chance, grain: Grain, len: usize) -> Vec<f32> {
    (0..len).map(|_| coordinate(chance, grain)).collect()
}

/// Rows of one grain, at times all of the largest size, at times with an odd coordinate among them.
pub fn rows(chance: &mut Chance, len: usize) -> Vec<f32> {
    let grain = chance.pick(&GRAINS);
    let mut list = of_grain(chance, grain, len);
    if chance.one_in(30) {
        list.iter_mut().for_each(|x| *x = f32::MAX * chance.pick(&[0.9996, 1.0, -0.9998]));
    }
    odd_coordinate(chance, &mut list, 8);
    list
}

/// Once in so many times, a coordinate that is not finite or at the edge of what is.
pub fn odd_coordinate(chance: &mut Chance, list: &mut [f32], once_in: usize) {
    let odd = [
        f32::NAN,
        -f32::NAN,
        f32::INFINITY,
        f32::NEG_INFINITY,
        f32::MAX,
        f32::MIN,
        f32::MIN_POSITIVE,
        f32::from_bits(1),
        -0.0,
        f32::from_bits(0x7f80_0001),
    ];
    if chance.one_in(once_in) && !list.is_empty() {
        let at = place(chance, list.len());
        list[at] = chance.pick(&odd);
    }
}

/// A place of a list, often its first or last.
pub fn place(chance: &mut Chance, len: usize) -> usize {
    match chance.below(4) {
        0 => 0,
        1 => len - 1,
        _ => chance.below(len),
    }
}

/// So many draws: all 0, anywhere, low, or exactly what a count of n rows is held against; at times
/// with an odd one among them.
pub fn draws(chance: &mut Chance, n: usize, len: usize) -> Vec<f64> {
    let below_1 = 1.0 - f64::EPSILON / 2.0;
    let odd = [f64::NAN, 1.0, -f64::MIN_POSITIVE, f64::INFINITY, 2.0, -0.0, below_1, -1.0];
    let (manner, n) = (chance.below(5), n.clamp(1, 1000));
    let draw = |_| match manner {
        0 => 0.0,
        1 => chance.unit(),
        2 => chance.unit() * 0.2,
        3 => chance.unit() * 0.01,
        _ => chance.below(n) as f64 / n as f64,
    };
    let mut list: Vec<f64> = (0..len).map(draw).collect();
    if chance.one_in(10) && len != 0 {
        list[place(chance, len)] = chance.pick(&odd);
    }
    list
}

/// Sub-centres of which every other is so far off that its distance from a small query is finite, and
/// the sum of two such is not.
pub fn far_off(chance: &mut Chance, len: usize) -> Vec<f32> {
    let centre = |at: usize| match at % 2 {
        0 => chance.below(3) as f32,
        _ => chance.pick(&[1.5e19, -1.5e19]),
    };
    (0..len).map(centre).collect()
}

/// Makes the codes of visible rows even, so that where a sub-space has one coordinate only hidden rows
/// have the centres that are far off.
pub fn hide_far_off(codes: &mut [u8], mask: &[u8], n_sub: usize) {
    for (of_row, _) in codes.chunks_mut(n_sub.max(1)).zip(mask).filter(|(_, &byte)| byte != 0) {
        of_row.iter_mut().for_each(|code| *code &= !1);
    }
}

/// A mask: all rows visible, none, or some; a visible row has any byte but 0.
pub fn mask(chance: &mut Chance, len: usize) -> Vec<u8> {
    let shown = chance.pick(&[0, 2, 3, 3, 4, 4, 4, 4]);
    let mut byte = || match chance.below(4) < shown {
        true => chance.between(1, 255) as u8,
        false => 0,
    };
    (0..len).map(|_| byte()).collect()
}

/// Codes of centres, at times with damaged ones among them.
pub fn codes(chance: &mut Chance, centres: usize, len: usize) -> (Vec<u8>, Option<&'static str>) {
    let below = centres.clamp(1, 256);
    let mut list: Vec<u8> = (0..len).map(|_| chance.below(below) as u8).collect();
    if len == 0 || below == 256 || !chance.one_in(6) {
        return (list, None);
    }
    if chance.one_in(6) {
        return (junk_u8(chance, len), Some("codes of any bytes"));
    }
    list[place(chance, len)] = chance.pick(&[below as u8, 255, 128]).max(below as u8);
    (list, Some("a code that no centre has"))
}

/// The lists of a celled index.
pub struct Lists {
    pub starts: Vec<u32>,
    pub members: Vec<u32>,
}

impl Lists {
    /// Sound lists of n rows in some cells: each row anywhere, some cells without rows.
    fn sound(chance: &mut Chance, cells: usize, n: usize) -> Lists {
        let used = chance.between(1, cells);
        let mut lists: Vec<Vec<u32>> = vec![Vec::new(); cells];
        for row in 0..n {
            lists[chance.below(used)].push(row as u32);
        }
        let last = cells - 1;
        lists.swap(chance.below(used), last);
        let mut starts = vec![0];
        for list in &lists {
            starts.push(starts[starts.len() - 1] + list.len() as u32);
        }
        Lists { starts, members: lists.concat() }
    }

    /// A cell that has so many rows at least: where its list begins, and where it ends.
    fn cell_of(&self, chance: &mut Chance, rows: u32) -> Option<(usize, usize)> {
        let ends = |pair: &[u32]| (pair[1] - pair[0] >= rows).then_some((pair[0], pair[1]));
        let cells: Vec<(u32, u32)> = self.starts.windows(2).filter_map(ends).collect();
        match cells.len() {
            0 => None,
            count => {
                let (begin, end) = cells[chance.below(count)];
                Some((begin as usize, end as usize))
            }
        }
    }
}

/// A damage to lists. After it the whole check answers 10; a search must answer each of `to_search` in
/// some call, since it looks into probed cells only.
pub struct Damage {
    pub name: &'static str,
    pub to_search: &'static [u32],
    /// Does it, and answers none where these lists cannot have it.
    does: fn(&mut Lists, &mut Chance) -> Option<()>,
}

/// Every damage to the lists of an index.
pub const DAMAGES: [Damage; 11] = [
    Damage {
        name: "starts not from 0",
        to_search: &[10],
        does: |lists, chance| {
            lists.starts[0] = chance.pick(&[1, 2, u32::MAX]);
            Some(())
        },
    },
    Damage {
        name: "starts that end before n",
        to_search: &[10],
        does: |lists, chance| {
            let last = lists.starts.last_mut()?;
            *last = last.checked_sub(chance.between(1, 3) as u32)?;
            Some(())
        },
    },
    Damage {
        name: "starts that end past n",
        to_search: &[10],
        does: |lists, chance| {
            *lists.starts.last_mut()? += chance.pick(&[1, 2, 1 << 31]);
            Some(())
        },
    },
    Damage {
        name: "a start that falls",
        to_search: &[10],
        does: |lists, chance| {
            let at = lists.starts.windows(2).position(|pair| pair[0] < pair[1])?;
            let from = chance.between(at + 1, lists.starts.len() - 1);
            lists.starts.swap(chance.below(at + 1), from);
            Some(())
        },
    },
    Damage {
        name: "a start past n",
        to_search: &[10],
        does: |lists, chance| {
            let n = *lists.starts.last()?;
            let inner = lists.starts.len().checked_sub(2).filter(|&inner| inner > 0)?;
            lists.starts[chance.between(1, inner)] = chance.pick(&[n + 1, n + 1025, u32::MAX]);
            Some(())
        },
    },
    Damage {
        name: "a member n",
        to_search: &[10, 0],
        does: |lists, chance| {
            let n = lists.members.len();
            *lists.members.get_mut(place(chance, n.max(1)))? = n as u32;
            Some(())
        },
    },
    Damage {
        name: "a member past n",
        to_search: &[10, 0],
        does: |lists, chance| {
            let n = lists.members.len();
            let past = chance.pick(&[n as u32 + 1, n as u32 + 1023, n as u32 + 1024, u32::MAX]);
            *lists.members.get_mut(place(chance, n.max(1)))? = past;
            Some(())
        },
    },
    Damage {
        name: "a member twice in a cell",
        to_search: &[10, 0],
        does: |lists, chance| {
            let (begin, end) = lists.cell_of(chance, 2)?;
            let at = chance.between(begin + 1, end - 1);
            lists.members[at] = lists.members[at - 1];
            Some(())
        },
    },
    Damage {
        name: "members that fall",
        to_search: &[10, 0],
        does: |lists, chance| {
            let (begin, end) = lists.cell_of(chance, 2)?;
            let at = chance.between(begin + 1, end - 1);
            lists.members.swap(at - 1, at);
            Some(())
        },
    },
    Damage {
        name: "a row in two cells",
        to_search: &[0],
        does: |lists, chance| {
            let (one, other) = (lists.cell_of(chance, 1)?.0, lists.cell_of(chance, 1)?.0);
            lists.members[one] = lists.members[other];
            (one != other).then_some(())
        },
    },
    Damage {
        name: "a row in no cell",
        to_search: &[10, 0],
        does: |lists, chance| {
            let (begin, end) = lists.cell_of(chance, 1)?;
            let after = lists.members[end - 1] + 1;
            lists.members[chance.between(begin, end - 1)] = after;
            Some(())
        },
    },
];

/// Lists of these lengths: sound if they are the right lengths, at times damaged; else anything.
pub fn lists(
    chance: &mut Chance,
    shape: &Shape,
    starts: usize,
    members: usize,
) -> (Lists, Option<&'static str>) {
    let in_bounds = (1..=1024).contains(&shape.cells);
    let lengths_are_right = in_bounds && starts == shape.cells + 1 && members == shape.n;
    if !lengths_are_right || chance.one_in(40) {
        let most = members as u32 + 2;
        let any = |len: usize, chance: &mut Chance| match chance.one_in(2) {
            true => junk_u32(chance, len),
            false => (0..len).map(|_| chance.below(most as usize) as u32).collect(),
        };
        return (Lists { starts: any(starts, chance), members: any(members, chance) }, None);
    }
    let mut lists = Lists::sound(chance, shape.cells, shape.n);
    if !chance.one_in(4) {
        return (lists, None);
    }
    let damage = &DAMAGES[chance.below(DAMAGES.len())];
    let done = (damage.does)(&mut lists, chance);
    (lists, done.map(|()| damage.name))
}

/// Anything, as 32-bit words.
pub fn junk_u32(chance: &mut Chance, len: usize) -> Vec<u32> {
    (0..len).map(|_| chance.bits() as u32).collect()
}

/// Anything, as f32.
pub fn junk_f32(chance: &mut Chance, len: usize) -> Vec<f32> {
    (0..len).map(|_| f32::from_bits(chance.bits() as u32)).collect()
}

/// Anything, as bytes.
pub fn junk_u8(chance: &mut Chance, len: usize) -> Vec<u8> {
    (0..len).map(|_| chance.bits() as u8).collect()
}
