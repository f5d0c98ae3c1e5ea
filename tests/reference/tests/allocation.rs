//! Nothing that is measured allocates: all working memory is lent or on the
//! stack.

mod common;

use common::*;
use reference::exported;
use std::alloc::{GlobalAlloc, Layout, System};
use std::cell::Cell;

thread_local! {
    static COUNT: Cell<usize> = const { Cell::new(0) };
}

/// The system's allocator, counting for each thread.
struct Counting;

// SAFETY: everything is passed on to the system's allocator unchanged.
unsafe impl GlobalAlloc for Counting {
    unsafe fn alloc(&self, layout: Layout) -> *mut u8 {
        COUNT.with(|count| count.set(count.get() + 1));
        // SAFETY: the caller's promise is passed on.
        unsafe { System.alloc(layout) }
    }

    unsafe fn dealloc(&self, memory: *mut u8, layout: Layout) {
        // SAFETY: the caller's promise is passed on.
        unsafe { System.dealloc(memory, layout) }
    }
}

#[global_allocator]
static ALLOCATOR: Counting = Counting;

#[test]
fn exported_functions_do_not_allocate() {
    let plan = hex(P);
    let answers = [0, 1, 1, 1, 1, 1];
    let (mut marks, mut notes, mut state, mut buffer) = ([0; 6], [0; 6], [0; 36], [0; 300]);
    let (mut kept, mut entries, mut count) = ([0; 36], [[0; 4]; 9], 0);
    let (mut names, mut places) = ([0; 128], [0; 16]);
    let desks = at_desks(&plan, &[7, 0x9f, 7, 0, 0x9f, 7]);
    let (mut rows, mut desk_names, mut desk_places) = ([0; 18], [0; 128], [0; 16]);
    let before = COUNT.get();
    let mut sum = exported::check(&plan) + exported::rewrite(&plan, &mut buffer[..12]);
    sum += exported::check_depths(&plan, &mut marks);
    sum += exported::renumber(&plan, &mut buffer[..12]) + exported::to_depths(&plan, &mut buffer[..12]);
    sum += exported::from_depths(&[2, 1, 1, 2], &mut buffer[..4]);
    sum += exported::repeat(&[3, 0xff, 1, 0], 0, 32, &mut [0; 320]);
    sum += exported::next_plan(&[3, 0xff, 1, 0], &mut buffer[..10]);
    sum += exported::workload(&plan, 1, 100, &mut buffer);
    for code in 0..10 {
        for node in 0..7 {
            sum += exported::guard(&plan, code, node, &mut buffer);
            sum += exported::rule(&plan, code, node);
            sum += exported::step(&plan, code, node, &mut marks);
            sum += exported::hear(&plan, code, node, &mut marks);
            sum += exported::simulate(&plan, code, node, HAPPENS, &mut state);
            sum += exported::simulate(&plan, code, node, 1, &mut state);
            sum += exported::keep(&plan, code, node, HAPPENS, &mut kept, &mut entries, &mut count);
            sum += exported::keep(&plan, code, node, 1, &mut kept, &mut entries, &mut count);
            sum += exported::undo(&plan, &mut kept, &entries, &mut count);
            let name = [code as u8, node as u8, 0, 0, 0, 0, 0, 0];
            sum += exported::point_name(&name, count, &mut names, &mut places);
            sum += exported::point_undo(&plan, &mut kept, &entries, &mut count, &mut names, &mut places);
            sum +=
                exported::point_back(&plan, &name, &mut kept, &entries, &mut count, &mut names, &mut places);
            sum += exported::central(&plan, code, node, &mut marks, &mut notes);
            sum += exported::desk_step(&desks, code, node, &mut marks);
            sum += exported::desk_simulate(&desks, code, node, HAPPENS, &mut rows);
            sum += exported::desk_simulate(&desks, code, node, 0x9f, &mut rows);
            sum += exported::desk_keep(&desks, code, node, HAPPENS, &mut rows, &mut entries, &mut count);
            sum += exported::desk_undo(&desks, &mut rows, &entries, &mut count);
            let (names, places) = (&mut desk_names, &mut desk_places);
            sum += exported::desk_point_undo(&desks, &mut rows, &entries, &mut count, names, places);
            sum += exported::desk_point_back(&desks, &name, &mut rows, &entries, &mut count, names, places);
        }
    }
    sum += exported::desk_check(&desks);
    sum += exported::desk_record(&desks, &rows, &mut marks, &mut notes);
    sum += exported::desk_record_by(&desks, &COMMON_TABLE, &rows, &mut marks, &mut notes);
    sum += exported::pass(&plan, &answers, &mut marks);
    sum += exported::impact(&plan, &answers, &mut marks, 5, 2);
    for mark in 0..6 {
        sum += exported::way(&plan, 4, mark, 3, &mut marks);
        sum += exported::way(&plan, 4, mark, 4, &mut marks);
    }
    sum += exported::record(&plan, &state, &mut marks, &mut notes);
    sum += exported::record_by(&plan, &COMMON_TABLE, &state, &mut marks, &mut notes);
    sum += exported::pass_record(&plan, &COMMON_TABLE, &answers, &mut marks, &mut notes);
    sum += exported::check_table(&COMMON_TABLE) + exported::version();
    assert_eq!(COUNT.get(), before);
    assert_ne!(sum, 0);
}
