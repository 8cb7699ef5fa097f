//! All that is in use on an idle table: of each lane the list from end to end, and under each hat at most one slot beside
//! it.

use std::collections::VecDeque;

use reference::count_free;
use reference::table::{
    content, header, is_tag, mark, node, tag, Content, Sizes, LEFT, LN, LX, LY, NONE, RIGHT, RN,
    RX, RY,
};

/// One end of the list.
#[derive(Clone, Copy, Debug, PartialEq, Eq)]
pub struct End {
    /// Slots without a bag, the outermost among them.
    pub spare: u32,
    /// 1 where the hat is on a slot beside the list, a spur, else 0.
    pub spur: u32,
}

/// The five numbers of a lane of an idle table, with its tags.
#[derive(Clone, Debug, PartialEq, Eq)]
pub struct List {
    /// Left, right.
    pub ends: [End; 2],
    /// Leftmost first.
    pub tags: VecDeque<u64>,
}

impl List {
    /// The list of a lane in the words; they must be those of such a list.
    fn of(table: &[u32], sizes: Sizes, lane: u32) -> List {
        let words = Words { table, sizes, lane };
        let slots = words.walk();
        let (left, tags) = words.left_and_tags(&slots);
        let inner = left + tags.len();
        let spurs = [
            (LEFT, left - 1, [NONE, slots[left], LY, 0]),
            (RIGHT, inner, [slots[inner - 1], NONE, RY, 0]),
        ];
        let [x, y] = spurs.map(|(side, place, beside)| words.spur(side, slots[place], beside));
        let ends = [(left, x), (slots.len() - inner, y)].map(|(spare, spur)| End {
            spare: spare as u32,
            spur,
        });
        List { ends, tags }
    }

    /// Whether a hat is on a spur.
    pub fn has_spur(&self) -> bool {
        self.ends.iter().any(|end| end.spur > 0)
    }

    /// The slots in use.
    fn used(&self) -> u32 {
        let [left, right] = self.ends.map(|end| end.spare + end.spur);
        left + self.tags.len() as u32 + right
    }
}

/// The lists of all lanes of an idle table.
#[derive(Clone, Debug, PartialEq, Eq)]
pub struct Lanes(pub Vec<List>);

impl Lanes {
    /// After a start every lane is empty, with one spare slot at each end.
    pub fn started(sizes: Sizes) -> Lanes {
        let end = End { spare: 1, spur: 0 };
        let list = List {
            ends: [end; 2],
            tags: VecDeque::new(),
        };
        Lanes(vec![list; sizes.lanes as usize])
    }

    /// The lists in the words; every slot of none of them must be free.
    pub fn of(table: &[u32], sizes: Sizes) -> Lanes {
        let lists = (0..sizes.lanes).map(|lane| List::of(table, sizes, lane));
        let lanes = Lanes(lists.collect());
        assert_eq!(count_free(table, sizes), lanes.free(sizes), "free slots");
        lanes
    }

    /// The slots that are left.
    pub fn free(&self, sizes: Sizes) -> u32 {
        sizes.nodes - self.0.iter().map(List::used).sum::<u32>()
    }

    /// Whether a tag is in a lane.
    pub fn has(&self, tag: u64) -> bool {
        self.tags().any(|standing| standing == tag)
    }

    /// The tags of all lanes.
    pub fn tags(&self) -> impl Iterator<Item = u64> + '_ {
        self.0.iter().flat_map(|list| &list.tags).copied()
    }
}

struct Words<'a> {
    table: &'a [u32],
    sizes: Sizes,
    lane: u32,
}

impl Words<'_> {
    /// L, R, V and digit of a slot.
    fn slot(&self, slot: u32) -> &[u32] {
        &self.table[self.sizes.node(slot)..][..node::WORDS]
    }

    fn hat(&self, side: u32) -> u32 {
        self.table[header::hat(self.lane, side)]
    }

    /// The slots of the list from the left end to the right one, each linked to the one before.
    fn walk(&self) -> Vec<u32> {
        let mut slots = vec![self.left_end()];
        loop {
            let last = slots[slots.len() - 1];
            match self.slot(last)[node::RIGHT] {
                NONE => return slots,
                next => {
                    assert_eq!(
                        self.slot(next)[node::LEFT],
                        last,
                        "the link back from slot {next}"
                    );
                    slots.push(next);
                }
            }
            assert!(slots.len() <= self.sizes.nodes as usize, "no right end");
        }
    }

    /// From the left hat outward; a spur leads there by way of the slot next to the innermost spare one.
    fn left_end(&self) -> u32 {
        let mut slot = self.hat(LEFT);
        if let &[_, inside, LY, 0] = self.slot(slot) {
            slot = inside;
        }
        for _ in 0..self.sizes.nodes {
            match self.slot(slot)[node::LEFT] {
                NONE => return slot,
                next => slot = next,
            }
        }
        panic!("no left end");
    }

    /// The spare slots at the left and the tags after them; the rest are spare slots at the right.
    fn left_and_tags(&self, slots: &[u32]) -> (usize, VecDeque<u64>) {
        let held = |&slot: &u32| content(self.slot(slot), node::VALUE);
        let contents: Vec<Content> = slots.iter().map(held).collect();
        let spare = |content: &&Content| [mark(LX), mark(LN)].contains(content);
        let left = contents.iter().take_while(spare).count();
        let held = contents.iter().filter(|&&content| is_tag(content));
        let tags: Vec<Content> = held.copied().collect();
        assert!(left > 0, "no spare slot at the left: {contents:?}");
        assert!(
            left + tags.len() < slots.len(),
            "none at the right: {contents:?}"
        );
        let mut wanted = vec![mark(LN); left];
        wanted.extend(&tags);
        wanted.resize(slots.len(), mark(RN));
        wanted[0] = mark(LX);
        wanted[slots.len() - 1] = mark(RX);
        assert_eq!(contents, wanted, "the list from its left end");
        let tags = tags.into_iter().map(|[low, digit]| tag(digit, low));
        (left, tags.collect())
    }

    /// 0 where the hat is on the innermost spare slot, 1 where it is on a slot with these words.
    fn spur(&self, side: u32, innermost: u32, beside: [u32; node::WORDS]) -> u32 {
        let slot = self.hat(side);
        if slot == innermost {
            return 0;
        }
        assert_eq!(self.slot(slot), beside, "a hat outside the list");
        1
    }
}
