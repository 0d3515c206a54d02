//! Slots in the order in which they were taken, as a list through their numbers: adding at the end
//! and taking out anywhere cost the same however many there are.

pub struct Order {
    /// For each slot its neighbours. Slot n stands at n + 1; at 0 are the last and the first of all.
    links: Vec<Link>,
}

#[derive(Clone, Copy)]
struct Link {
    before: usize,
    behind: usize,
}

impl Order {
    pub fn new() -> Order {
        let alone = Link {
            before: 0,
            behind: 0,
        };
        Order { links: vec![alone] }
    }

    /// The slot that has been in it for the longest time.
    pub fn first(&self) -> Option<usize> {
        self.links[0].behind.checked_sub(1)
    }

    /// Adds a slot that is not in it.
    pub fn push(&mut self, slot: usize) {
        let (at, last) = (slot + 1, self.links[0].before);
        if at >= self.links.len() {
            let unlinked = Link {
                before: at,
                behind: at,
            };
            self.links.resize(at + 1, unlinked);
        }
        self.links[at] = Link {
            before: last,
            behind: 0,
        };
        self.links[last].behind = at;
        self.links[0].before = at;
    }

    /// Takes a slot out; one that is not in it, no more.
    pub fn remove(&mut self, slot: usize) {
        let at = slot + 1;
        let Link { before, behind } = self.links[at];
        if before == at {
            return;
        }
        self.links[before].behind = behind;
        self.links[behind].before = before;
        self.links[at] = Link {
            before: at,
            behind: at,
        };
    }
}

#[cfg(test)]
mod tests {
    use super::*;
    use std::collections::VecDeque;

    /// Against a queue that is searched, with numbers without much order.
    #[test]
    fn slots_leave_in_the_order_in_which_they_came() {
        let (mut order, mut queue) = (Order::new(), VecDeque::new());
        let mut mixed = 88_172_645_463_325_252_u64;
        for _ in 0..20_000 {
            mixed ^= mixed << 13;
            mixed ^= mixed >> 7;
            mixed ^= mixed << 17;
            let slot = (mixed % 40) as usize;
            match queue.iter().position(|&it| it == slot) {
                Some(at) => {
                    queue.remove(at);
                    order.remove(slot);
                }
                None => {
                    queue.push_back(slot);
                    order.push(slot);
                    order.remove(slot);
                    order.remove(slot);
                    order.push(slot);
                }
            }
            assert_eq!(order.first(), queue.front().copied());
        }
        while let Some(slot) = queue.pop_front() {
            assert_eq!(order.first(), Some(slot));
            order.remove(slot);
        }
        assert_eq!(order.first(), None);
    }
}
