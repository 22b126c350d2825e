//! Changes to a store that keep its lists whole, so that the damage lies elsewhere.

use crate::layout::{Field, LENGTHS, Layout, NEXT, PREV, QUEUE, header_cell, number};

pub struct Edit<'a> {
    pub store: &'a mut [u8],
    pub layout: Layout,
}

impl Edit<'_> {
    pub fn get(&self, node: usize, field: Field) -> usize {
        number(&self.store[self.layout.field(node, field)]) as usize
    }

    pub fn set(&mut self, node: usize, field: Field, value: usize) {
        let place = self.layout.field(node, field);
        let width = field.width;
        self.store[place].copy_from_slice(&value.to_le_bytes()[..width]);
    }

    pub fn add_to_header(&mut self, cell: usize, change: i64) {
        let now = number(&self.store[header_cell(cell)]);
        self.store[header_cell(cell)].copy_from_slice(&now.wrapping_add_signed(change).to_le_bytes());
    }

    /// Takes a node out of its list.
    pub fn detach(&mut self, node: usize) {
        let (next, prev) = (self.get(node, NEXT), self.get(node, PREV));
        self.set(prev, NEXT, next);
        self.set(next, PREV, prev);
        self.add_to_header(LENGTHS + self.get(node, QUEUE), -1);
    }

    /// Puts a node that is in no list at the head of one.
    pub fn attach(&mut self, node: usize, list: u8) {
        let sentinel = self.layout.sentinel(list);
        let head = self.get(sentinel, NEXT);
        self.set(node, NEXT, head);
        self.set(node, PREV, sentinel);
        self.set(sentinel, NEXT, node);
        self.set(head, PREV, node);
        self.set(node, QUEUE, usize::from(list));
        self.add_to_header(LENGTHS + usize::from(list), 1);
    }
}
