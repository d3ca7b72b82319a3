//! What each page of a container is for, found as request 2026-05 says it: by going through the pages in rising
//! order.

use std::iter::once;

use crate::container::{need, ABSENT, HEADER_BLOCK};

/// What a page is for.
#[derive(Clone, Copy, Debug, Eq, PartialEq)]
pub enum Role {
    Header,
    FreeMap,
    /// A stream's page: the stream, and which of its pages, from 0.
    Stream(usize, usize),
    /// A page of the directory: which of them, from 0.
    Directory(usize),
    Location,
    /// A free page, that there be 4,096 bytes.
    Padding,
}

/// The number of bytes of a stream: none if it is absent.
pub fn bytes_of(size: u32) -> usize {
    if size == ABSENT {
        0
    } else {
        size as usize
    }
}

/// The role of each page of a file, if its directory takes `directory` pages.
pub fn roles(page_size: usize, sizes: &[u32], directory: usize) -> Vec<Role> {
    let streams = sizes.iter().enumerate().flat_map(|(stream, &size)| {
        (0..need(bytes_of(size), page_size)).map(move |i| Role::Stream(stream, i))
    });
    let data = streams
        .chain((0..directory).map(Role::Directory))
        .chain(once(Role::Location));
    let mut roles = vec![Role::Header];
    for role in data {
        while is_free_map(roles.len(), page_size) {
            roles.push(Role::FreeMap);
        }
        roles.push(role);
    }
    while roles.len() * page_size < HEADER_BLOCK {
        roles.push(Role::Padding);
    }
    roles
}

fn is_free_map(page: usize, page_size: usize) -> bool {
    page % page_size == 1 || page % page_size == 2
}
