//! Where document 01 refuses and the Rust does not: it would panic, loop, return silently or go on.
//!
//! The judge is asked before each call and hears of each accepted one. Beside the Rust tree it keeps only the lent room, the number of
//! live nodes, and what calls for a commit: marks, and whether an entry is marked removed. The Rust's own flag stays set when a node
//! is inserted and removed again; document 01's need does not. Pending rectangles come only with removed entries, so they are not kept.

use std::collections::HashSet;

use crate::calls::{Call, Reading};
use crate::tree::Tree;
use crate::types::NodeId;

const NODES: usize = 256;
const RECTS: usize = 512;
const FLAGS: u8 = 7;

pub struct Judge {
    ids: usize,
    rects: usize,
    live: usize,
    marked: HashSet<NodeId>,
    /// Live nodes that were committed: those have an entry.
    entered: HashSet<NodeId>,
    removed_entry: bool,
}

impl Judge {
    pub fn new() -> Self {
        Self {
            ids: NODES,
            rects: RECTS,
            live: 0,
            marked: HashSet::new(),
            entered: HashSet::new(),
            removed_entry: false,
        }
    }

    pub fn needs_commit(&self) -> bool {
        !self.marked.is_empty() || self.removed_entry
    }

    /// The refusal, if any: the lowest number that applies.
    pub fn refusal(&self, tree: &Tree, call: &Call) -> Option<u32> {
        let dead = |id: NodeId| !tree.is_alive(id);
        let dead_parent = |parent: Option<NodeId>| parent.is_some_and(dead);
        let first = |tests: &[(bool, u32)]| tests.iter().find(|t| t.0).map(|t| t.1);
        match *call {
            Call::Insert(parent, n) => {
                let finite = n.bounds.is_finite() && n.slop.is_finite() && n.transform.is_finite();
                first(&[
                    (dead_parent(parent), 3),
                    (!(finite && n.clip.is_finite()), 5),
                    (n.flags > FLAGS, 6),
                    (self.live >= NODES, 9),
                ])
            }
            Call::Remove(id) | Call::SetZIndex(id, _) => first(&[(dead(id), 2)]),
            Call::Reparent(id, parent) => {
                first(&[(dead(id), 2), (dead_parent(parent), 3), (is_under(tree, parent, id), 4)])
            }
            Call::SetLocalBounds(id, r) => first(&[(dead(id), 2), (!r.is_finite(), 5)]),
            Call::SetHitSlop(id, s) => first(&[(dead(id), 2), (!s.is_finite(), 5)]),
            Call::SetLocalTransform(id, t) => first(&[(dead(id), 2), (!t.is_finite(), 5)]),
            Call::SetLocalClip(id, clip) => first(&[(dead(id), 2), (!clip.is_finite(), 5)]),
            Call::SetFlags(id, flags) => first(&[(dead(id), 2), (flags > FLAGS, 6)]),
            Call::Commit => first(&[(self.rects < RECTS, 8)]),
            Call::HitTestPoint(_, flags)
            | Call::IntersectRect(_, flags)
            | Call::ContainingPoint(_, flags) => {
                first(&[(flags > FLAGS, 6), (self.needs_commit(), 7), (self.ids < NODES, 8)])
            }
            Call::Read(Reading::IsAlive, _) => None,
            Call::Read(Reading::ChildrenOf, id) => first(&[(dead(id), 2), (self.ids < NODES, 8)]),
            Call::Read(
                Reading::WorldBounds | Reading::WorldHitBounds | Reading::WorldTransform,
                id,
            ) => first(&[(dead(id), 2), (self.needs_commit(), 7)]),
            Call::Read(_, id) => first(&[(dead(id), 2)]),
            Call::New | Call::Room(_) | Call::NeedsCommit => None,
        }
    }

    /// Hears of an accepted call, before the tree makes it.
    pub fn hears(&mut self, tree: &Tree, call: &Call) {
        let (is_changed, id) = match *call {
            Call::New => {
                let (ids, rects) = (self.ids, self.rects);
                *self = Self { ids, rects, ..Self::new() };
                return;
            }
            Call::Room(n) => {
                (self.ids, self.rects) = (n as usize, n as usize);
                return;
            }
            Call::Remove(id) => return self.remove(tree, id),
            Call::Commit => {
                // Every live node without an entry is marked, and gets one.
                self.entered.extend(self.marked.drain());
                self.removed_entry = false;
                return;
            }
            Call::Reparent(id, _) => (true, id),
            Call::SetLocalBounds(id, r) => (tree.local_bounds(id) != Some(r), id),
            Call::SetHitSlop(id, s) => (tree.hit_slop(id) != Some(s), id),
            Call::SetLocalTransform(id, t) => (tree.local_transform(id) != Some(t), id),
            Call::SetLocalClip(id, clip) => (tree.local_clip(id) != Some(clip.construct()), id),
            _ => return,
        };
        if is_changed {
            self.marked.insert(id);
        }
    }

    /// Hears of the id that an insert gave.
    pub fn inserted(&mut self, id: NodeId) {
        self.live += 1;
        self.marked.insert(id);
    }

    fn remove(&mut self, tree: &Tree, id: NodeId) {
        for child in tree.children_of(id) {
            self.remove(tree, *child);
        }
        self.live -= 1;
        self.marked.remove(&id);
        self.removed_entry |= self.entered.remove(&id);
    }
}

/// Whether `at` is `id` or below it.
fn is_under(tree: &Tree, mut at: Option<NodeId>, id: NodeId) -> bool {
    while let Some(node) = at {
        if node == id {
            return true;
        }
        at = tree.parent_of(node);
    }
    false
}
