//! Memory with a fence on both sides, so that a write beside it is seen.

/// So many elements stand behind the memory; in front of it there are one or more.
const BEHIND: usize = 24;

/// Elements to lend, between others that must keep their value.
#[derive(Clone)]
pub struct Fenced<T> {
    all: Vec<T>,
    front: usize,
    length: usize,
    fence: T,
}

impl<T: Copy + PartialEq> Fenced<T> {
    /// `length` elements of this value, behind `front` of the fence's. With bytes, an odd front makes
    /// an odd address.
    pub fn new(length: usize, value: T, front: usize, fence: T) -> Fenced<T> {
        let mut all = vec![fence; front + length + BEHIND];
        all[front..front + length].fill(value);
        Fenced {
            all,
            front,
            length,
            fence,
        }
    }

    /// The same elements as this slice has.
    pub fn copy(from: &[T], front: usize, fence: T) -> Fenced<T> {
        let mut fenced = Fenced::new(from.len(), fence, front, fence);
        fenced.inside_mut().copy_from_slice(from);
        fenced
    }

    pub fn inside(&self) -> &[T] {
        &self.all[self.front..self.front + self.length]
    }

    pub fn inside_mut(&mut self) -> &mut [T] {
        &mut self.all[self.front..self.front + self.length]
    }

    /// Everything, fence and inside.
    pub fn all_mut(&mut self) -> &mut [T] {
        &mut self.all
    }

    /// Whether the elements around it are as they were.
    pub fn stands(&self) -> bool {
        let (front, rest) = self.all.split_at(self.front);
        let behind = &rest[self.length..];
        front.iter().chain(behind).all(|value| *value == self.fence)
    }
}
