//! Stand-in: a node of an XML document, of which there is none.

use std::convert::Infallible;
use std::marker::PhantomData;

#[derive(Clone, Copy)]
pub struct Node<'a, 'i>(Infallible, PhantomData<(&'a (), &'i ())>);

pub struct TagName(Infallible);

impl TagName {
    pub fn name(&self) -> &'static str {
        match self.0 {}
    }
}

impl<'a, 'i> Node<'a, 'i> {
    pub fn children(self) -> std::iter::Empty<Node<'a, 'i>> {
        match self.0 {}
    }
    pub fn is_element(&self) -> bool {
        match self.0 {}
    }
    pub fn tag_name(&self) -> TagName {
        match self.0 {}
    }
    pub fn text(&self) -> Option<&'a str> {
        match self.0 {}
    }
    pub fn attribute(&self, _name: &str) -> Option<&'a str> {
        match self.0 {}
    }
}
