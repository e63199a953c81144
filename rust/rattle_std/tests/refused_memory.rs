//! Memory is refused at one request after the other: each call answers an error, and what was there stays.
use rattle_std::alloc::{AllocError, Global};
use rattle_std::{Box, CollectIn, String, Vec, format_in};
use std::alloc::{GlobalAlloc, Layout, System};
use std::cell::Cell;
use std::ptr::null_mut;

thread_local! {
    /// How many requests of this thread are still granted; None: all.
    static GRANTED: Cell<Option<u32>> = const { Cell::new(None) };
}

struct Refusing;

fn is_granted() -> bool {
    GRANTED.with(|left| match left.get() {
        None => true,
        Some(0) => false,
        Some(count) => {
            left.set(Some(count - 1));
            true
        }
    })
}

unsafe impl GlobalAlloc for Refusing {
    unsafe fn alloc(&self, layout: Layout) -> *mut u8 {
        if is_granted() { unsafe { System.alloc(layout) } } else { null_mut() }
    }

    unsafe fn realloc(&self, place: *mut u8, layout: Layout, size: usize) -> *mut u8 {
        if is_granted() { unsafe { System.realloc(place, layout, size) } } else { null_mut() }
    }

    unsafe fn dealloc(&self, place: *mut u8, layout: Layout) {
        unsafe { System.dealloc(place, layout) }
    }
}

#[global_allocator]
static MEMORY: Refusing = Refusing;

fn with<T>(granted: u32, call: impl FnOnce() -> T) -> T {
    GRANTED.with(|left| left.set(Some(granted)));
    let answer = call();
    GRANTED.with(|left| left.set(None));
    answer
}

#[test]
fn a_vector_that_cannot_grow_gives_the_value_back() {
    let mut items = Vec::from_slice(Global, &[1u8, 2, 3]).unwrap();
    while items.len() < items.capacity() {
        items.push(0).unwrap();
    }
    let before = items.to_vec();
    let refused = with(0, || items.push(9)).unwrap_err();
    assert_eq!(refused.value, 9);
    assert_eq!(items.as_slice(), before.as_slice());
    assert_eq!(with(0, || items.insert(0, 7)).unwrap_err().value, 7);
    assert_eq!(with(0, || items.extend_from_slice(&[5; 100])), Err(AllocError));
    assert_eq!(with(0, || items.resize(100, 5)), Err(AllocError));
    assert_eq!(with(0, || items.reserve(100)), Err(AllocError));
    assert_eq!(with(0, || items.clone()), Err(AllocError));
    assert_eq!(items.as_slice(), before.as_slice());
}

#[test]
fn a_vector_grows_where_there_is_memory() {
    let mut items = Vec::new(Global);
    for number in 0..1000u32 {
        items.push(number).unwrap();
    }
    assert_eq!(items.iter().sum::<u32>(), 499_500);
    items.resize(3, 0).unwrap();
    assert_eq!(items.as_slice(), [0, 1, 2]);
    items.insert(1, 9).unwrap();
    assert_eq!(items.clone().unwrap().as_slice(), [0, 9, 1, 2]);
}

#[test]
fn a_vector_is_collected_or_none_is() {
    assert_eq!((0..3u8).collect_in(Global).unwrap().as_slice(), [0, 1, 2]);
    assert_eq!(with(0, || (0..3u8).collect_in(Global)), Err(AllocError));
    // (the first request has room for a few)
    assert_eq!(with(1, || (0..100u8).collect_in(Global)), Err(AllocError));
}

#[test]
fn a_text_that_cannot_grow_stays() {
    let mut text = String::from_str(Global, "drive").unwrap();
    let long = "x".repeat(100);
    assert_eq!(with(0, || text.push_str(&long)), Err(AllocError));
    assert_eq!(with(0, || text.clone()), Err(AllocError));
    assert_eq!(with(0, || String::from_str(Global, "8")), Err(AllocError));
    assert_eq!(text.as_str(), "drive");
}

#[test]
fn a_format_answers_an_error() {
    assert_eq!(format_in!(in Global; "{}, {:02}", 73, 0).unwrap().as_str(), "73, 00");
    assert_eq!(with(0, || format_in!(in Global; "{}", 73)), Err(AllocError));
}

#[test]
fn a_box_that_cannot_be_made_gives_the_value_back() {
    assert_eq!(with(0, || Box::new(Global, [7u8; 64])).unwrap_err().value, [7; 64]);
    assert_eq!(Box::new(Global, [7u8; 64]).unwrap().into_inner(), [7; 64]);
    // (what has no size needs no memory)
    assert!(with(0, || Box::new(Global, ())).is_ok());
}
