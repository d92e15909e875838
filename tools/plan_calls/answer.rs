//! Answers calls from the Rust tree, with the judge before it.

use kurbo::Rect;

use crate::calls::{Call, Clip, Line, Local, Reading};
use crate::judge::Judge;
use crate::tree::{QueryFilter, Tree};
use crate::types::{LocalNode, NodeFlags, NodeId};

pub struct Program {
    pub tree: Tree,
    pub judge: Judge,
}

impl Program {
    pub fn new() -> Self {
        Self { tree: Tree::new(), judge: Judge::new() }
    }

    pub fn answer(&mut self, call: Call) -> String {
        if let Some(number) = self.judge.refusal(&self.tree, &call) {
            if number == 2 {
                self.hand_dead_id(call);
            }
            return format!("refused {number}");
        }
        self.judge.hears(&self.tree, &call);
        let mut line = Line::default();
        self.make(call, &mut line);
        line.0
    }

    /// The Rust is handed dead ids too: it has to leave the tree alone and to read nothing.
    fn hand_dead_id(&mut self, call: Call) {
        match call {
            Call::Read(Reading::ChildrenOf, id) => assert!(self.tree.children_of(id).is_empty()),
            Call::Read(Reading::ParentOf, id) => assert_eq!(self.tree.parent_of(id), None),
            Call::Read(Reading::NextDepthFirst, id) => {
                assert_eq!(self.tree.next_depth_first(id), None)
            }
            Call::Read(Reading::PrevDepthFirst, id) => {
                assert_eq!(self.tree.prev_depth_first(id), None)
            }
            Call::Read(reading, id) => {
                assert!(self.read(reading, id, &mut Line::default()).is_none())
            }
            _ => self.make(call, &mut Line::default()),
        }
    }

    fn make(&mut self, call: Call, out: &mut Line) {
        let tree = &mut self.tree;
        match call {
            Call::New => *tree = Tree::new(),
            Call::Room(_) => {}
            Call::Insert(parent, local) => {
                let id = tree.insert(parent, local_node(local));
                self.judge.inserted(id);
                out.id(id);
                return;
            }
            Call::Remove(id) => tree.remove(id),
            Call::Reparent(id, parent) => tree.reparent(id, parent),
            Call::SetLocalBounds(id, r) => tree.set_local_bounds(id, r),
            Call::SetHitSlop(id, s) => tree.set_hit_slop(id, s),
            Call::SetLocalTransform(id, t) => tree.set_local_transform(id, t),
            Call::SetLocalClip(id, clip) => tree.set_local_clip(id, clip.construct()),
            Call::SetZIndex(id, z) => tree.set_z_index(id, z),
            Call::SetFlags(id, flags) => tree.set_flags(id, NodeFlags::from_bits_retain(flags)),
            _ => return self.tell(call, out),
        }
        out.word("ok");
    }

    fn tell(&mut self, call: Call, out: &mut Line) {
        match call {
            Call::Commit => {
                let damage = self.tree.commit();
                out.whole(damage.dirty_rects.len() as i64);
                for r in damage.dirty_rects {
                    out.rect(Line::edge, r);
                }
            }
            Call::NeedsCommit => {
                // The Rust's flag is set wherever a commit is needed, and stays where a node was removed before its first commit.
                let need = self.judge.needs_commit();
                assert!(self.tree.needs_commit() || !need);
                out.word(if need { "true" } else { "false" });
            }
            Call::Read(reading, id) => self.read(reading, id, out).expect("a live id"),
            Call::HitTestPoint(p, flags) => match self.tree.hit_test_point(p, filter(flags)) {
                Some(hit) => {
                    out.id(hit.node).ids(&hit.path);
                }
                None => {
                    out.word("none");
                }
            },
            Call::IntersectRect(r, flags) => {
                let ids: Vec<NodeId> = self.tree.intersect_rect(r, filter(flags)).collect();
                out.ids(&ids);
            }
            Call::ContainingPoint(p, flags) => {
                let ids: Vec<NodeId> = self.tree.containing_point(p, filter(flags)).collect();
                out.ids(&ids);
            }
            _ => unreachable!(),
        }
    }

    /// Nothing where the Rust says that the id is not live.
    fn read(&self, reading: Reading, id: NodeId, out: &mut Line) -> Option<()> {
        let tree = &self.tree;
        let rect = |out: &mut Line, r: Rect| {
            out.rect(Line::edge, r);
        };
        match reading {
            Reading::IsAlive => {
                out.word(if tree.is_alive(id) { "true" } else { "false" });
            }
            Reading::ParentOf => {
                out.some_id(tree.parent_of(id), "none");
            }
            Reading::NextDepthFirst => {
                out.some_id(tree.next_depth_first(id), "none");
            }
            Reading::PrevDepthFirst => {
                out.some_id(tree.prev_depth_first(id), "none");
            }
            Reading::ChildrenOf => {
                out.ids(tree.children_of(id));
            }
            Reading::ZIndex => {
                out.whole(i64::from(tree.z_index(id)?));
            }
            Reading::Flags => {
                out.whole(i64::from(tree.flags(id)?.bits()));
            }
            Reading::HitSlop => {
                out.insets(Line::signed, tree.hit_slop(id)?);
            }
            Reading::LocalTransform => {
                out.each(Line::signed, &tree.local_transform(id)?.as_coeffs());
            }
            Reading::WorldTransform => {
                out.each(Line::signed, &tree.world_transform(id)?.as_coeffs());
            }
            Reading::LocalClip => {
                out.clip(Line::edge, Clip::of(tree.local_clip(id)?));
            }
            Reading::LocalBounds => rect(out, tree.local_bounds(id)?),
            Reading::WorldBounds => rect(out, tree.world_bounds(id)?),
            Reading::WorldHitBounds => rect(out, tree.world_hit_bounds(id)?),
        }
        Some(())
    }
}

fn filter(flags: u8) -> QueryFilter {
    QueryFilter { required_flags: NodeFlags::from_bits_retain(flags) }
}

fn local_node(n: Local) -> LocalNode {
    LocalNode {
        local_bounds: n.bounds,
        hit_slop: n.slop,
        local_transform: n.transform,
        local_clip: n.clip.construct(),
        z_index: n.z,
        flags: NodeFlags::from_bits_retain(n.flags),
    }
}
