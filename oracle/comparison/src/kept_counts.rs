//! `keep_count`: whether whoever is in one list is in the other, as the same kind, and what becomes of a tile's bytes. The
//! Rust has no such call; it is written here once more, from two lists of ids and kinds.

use reference::plain::Cached;

use crate::{
    exports,
    memory::{REFUSED, REFUSED_WITHOUT},
    random::Random,
    tally::{Kind, Tally},
};

pub fn compare(tally: &mut Tally) {
    tally.random("kept counts", |kind| {
        let call = any_call(&mut kind.random);
        check(kind, &call);
    });
    tally.random("kept counts, damaged lists", |kind| {
        let mut call = any_call(&mut kind.random);
        for _ in 0..1 + kind.random.below(2) {
            damage(&mut kind.random, &mut call);
        }
        check(kind, &call);
    });
}

/// A lent list: layer ids and kinds, of which so many count.
#[derive(Clone, Debug, Default, Eq, PartialEq)]
pub struct Members {
    pub ids: Vec<u32>,
    pub kinds: Vec<u8>,
    pub count: usize,
}

/// The list of the tile's last work, today's, and the cached tile's bytes, which may be given.
#[derive(Clone, Debug, Eq, PartialEq)]
pub struct CountCall {
    pub last: Members,
    pub today: Members,
    pub is_kept: bool,
    pub kept: Cached,
}

/// The refusal's number, whether the count may stay, and the tile's bytes.
pub type Counted = (u32, bool, Cached);

/// What the lent flag holds before a call.
fn untouched(call: &CountCall) -> bool {
    call.kept.0[7].is_multiple_of(2)
}

/// The library's answer; what is only lent to be read is as it was.
pub fn keep_count(call: &CountCall) -> Counted {
    let lent = call.clone();
    let (mut kept, mut stays) = (call.kept, untouched(call));
    let number = unsafe {
        exports::ffi_keep_count(
            lent.last.ids.as_ptr(),
            lent.last.ids.len(),
            lent.last.kinds.as_ptr(),
            lent.last.kinds.len(),
            lent.last.count,
            lent.today.ids.as_ptr(),
            lent.today.ids.len(),
            lent.today.kinds.as_ptr(),
            lent.today.kinds.len(),
            lent.today.count,
            lent.is_kept,
            &mut kept.0,
            &mut stays,
        )
    };
    assert_eq!(lent, *call, "what is lent to be read is not written");
    (number, stays, kept)
}

impl Members {
    /// A list in columns of 256 and more, which are filled with numbers of their own past its end.
    pub fn new(members: &[(u32, u8)]) -> Self {
        let column = |at: usize| members.get(at).copied().unwrap_or((at as u32 * 7, at as u8));
        let len = members.len().max(256);
        Self {
            ids: (0..len).map(|at| column(at).0).collect(),
            kinds: (0..len).map(|at| column(at).1).collect(),
            count: members.len(),
        }
    }

    fn is_short(&self) -> bool {
        self.ids.len() < 256 || self.kinds.len() < 256
    }

    /// The entries that are judged.
    fn judged(&self) -> impl Iterator<Item = (u32, u8)> + '_ {
        self.ids.iter().copied().zip(self.kinds.iter().copied()).take(self.count.min(256))
    }

    fn has_bad_kind(&self) -> bool {
        self.judged().any(|(_, kind)| kind > 2)
    }

    fn ascends(&self) -> bool {
        self.judged().zip(self.judged().skip(1)).all(|(one, next)| one.0 < next.0)
    }
}

/// The number of the refusal: 1, 4 to 7, the lowest that applies.
fn refusal(call: &CountCall) -> u32 {
    let lists = [&call.last, &call.today];
    if lists.iter().any(|list| list.is_short()) {
        1
    } else if lists.iter().any(|list| list.has_bad_kind()) {
        4
    } else if !lists.iter().all(|list| list.ascends()) {
        5
    } else if call.is_kept && call.kept.0[0] > 3 {
        6
    } else if lists.iter().any(|list| list.count > 256) {
        7
    } else {
        0
    }
}

/// Whoever was listed is listed still, and as the same kind.
pub fn stays(last: &[(u32, u8)], today: &[(u32, u8)]) -> bool {
    last.iter().all(|member| today.contains(member))
}

/// What a call must give and leave.
pub fn expected(call: &CountCall) -> Counted {
    let number = refusal(call);
    if number != 0 {
        return (number, untouched(call), call.kept);
    }
    let [last, today] = [&call.last, &call.today].map(|list| list.judged().collect::<Vec<_>>());
    let may_stay = stays(&last, &today);
    let mut kept = call.kept;
    if call.is_kept && !may_stay {
        kept.0[0] &= 1;
    }
    (0, may_stay, kept)
}

pub fn check(kind: &mut Kind, call: &CountCall) {
    let expected = expected(call);
    kind.note(if call.is_kept { REFUSED } else { REFUSED_WITHOUT }[expected.0 as usize]);
    if expected.0 == 0 {
        kind.note(if expected.1 { "the count stays" } else { "the count is dropped" });
    }
    let ours = keep_count(call);
    kind.case(ours == expected, || format!("{call:?}: expected {expected:?}, the library {ours:?}"));
}

fn any_list(random: &mut Random) -> Vec<(u32, u8)> {
    let len = random.pick(&[0, 1, 2, 3, 4, 8, 40, 255, 256]);
    let step = random.pick(&[1, 2, 1000]);
    let mut id = random.below(4) as u32;
    let mut list = Vec::new();
    for _ in 0..len {
        list.push((id, random.below(3) as u8));
        id += 1 + random.below(step) as u32;
    }
    list
}

/// Today's list: the last one with some layers more, and now and then one that left or became another kind; or any.
pub fn any_call(random: &mut Random) -> CountCall {
    let last = any_list(random);
    let mut today = if random.once_in(6) { any_list(random) } else { last.clone() };
    if !today.is_empty() && random.once_in(3) {
        today.remove(random.below(today.len()));
    }
    if !today.is_empty() && random.once_in(3) {
        let at = random.below(today.len());
        today[at].1 = (today[at].1 + 1) % 3;
    }
    for _ in 0..random.below(3) {
        let id = random.below(2000) as u32;
        if let (true, Err(at)) = (today.len() < 256, today.binary_search_by_key(&id, |member| member.0)) {
            today.insert(at, (id, random.below(3) as u8));
        }
    }
    let mut kept = random.word().to_le_bytes();
    kept[0] &= 3;
    let is_kept = !random.once_in(4);
    CountCall { last: Members::new(&last), today: Members::new(&today), is_kept, kept: Cached(kept) }
}

/// One of the ways that a refusal knows, or numbers past a list's end, which mean nothing.
pub fn damage(random: &mut Random, call: &mut CountCall) {
    let list = if random.once_in(2) { &mut call.last } else { &mut call.today };
    let at = random.below(list.count.clamp(1, 256));
    match random.below(8) {
        0 => list.ids.truncate(random.pick(&[0, 3, 255])),
        1 => list.kinds.truncate(random.pick(&[0, 3, 255])),
        2 if at < list.kinds.len() => list.kinds[at] = random.pick(&[3, 4, 128, 255]),
        3 if at > 0 && at < list.ids.len() && random.once_in(2) => list.ids[at] = list.ids[at - 1],
        3 if at < list.ids.len() => list.ids[at] = random.word() as u32,
        4 => call.kept.0[0] = random.word() as u8,
        5 => list.count = random.pick(&[257, 300, 4096, usize::MAX]),
        6 => {
            // As many entries in order as a list has at most, and a count above it.
            let len = 256 + random.below(4);
            list.ids = (0..len as u32).collect();
            list.kinds = vec![random.below(3) as u8; len];
            list.count = len;
        }
        _ => {
            list.ids.extend([0, u32::MAX]);
            list.kinds.extend([9, 9]);
        }
    }
}
