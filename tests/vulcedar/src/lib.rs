//! Safe functions over the C archive `libvulcedar.a`.
//!
//! Each takes slices where the C function takes a pointer and a length, and
//! answers the packed result as it comes: bits 0 to 7 the number (0 passed),
//! bits 8 to 15 a site or a desk (of a guard, its rule), bits 16 to 31 a value.

mod raw;

pub use raw::Entry;

/// Checks a plan.
pub fn check(plan: &[u8]) -> u32 {
    // SAFETY: pointer and length are those of a slice that outlives the call.
    unsafe { raw::vulcedar_check(plan.as_ptr(), plan.len()) }
}

/// Rewrites a plan from before kind 08.
pub fn rewrite(plan: &[u8], out: &mut [u8]) -> u32 {
    // SAFETY: as for `check`; what is written is lent for writing alone.
    unsafe { raw::vulcedar_rewrite(plan.as_ptr(), plan.len(), out.as_mut_ptr(), out.len()) }
}

/// Writes a plan in the fixed numbering.
pub fn renumber(plan: &[u8], out: &mut [u8]) -> u32 {
    // SAFETY: as for `rewrite`.
    unsafe { raw::vulcedar_renumber(plan.as_ptr(), plan.len(), out.as_mut_ptr(), out.len()) }
}

/// Writes the depth form of a plan.
pub fn to_depths(plan: &[u8], out: &mut [u8]) -> u32 {
    // SAFETY: as for `rewrite`.
    unsafe { raw::vulcedar_to_depths(plan.as_ptr(), plan.len(), out.as_mut_ptr(), out.len()) }
}

/// Writes the plan of a depth form.
pub fn from_depths(depths: &[u8], out: &mut [u8]) -> u32 {
    // SAFETY: as for `rewrite`.
    unsafe { raw::vulcedar_from_depths(depths.as_ptr(), depths.len(), out.as_mut_ptr(), out.len()) }
}

/// Writes a plan in which the subtree of a marked block's only child stands as
/// many times as the count says; the value is its number of nodes.
pub fn repeat(plan: &[u8], node: u32, count: u32, out: &mut [u8]) -> u32 {
    // SAFETY: as for `rewrite`.
    unsafe { raw::vulcedar_repeat(plan.as_ptr(), plan.len(), node, count, out.as_mut_ptr(), out.len()) }
}

/// Writes the small plan that comes next; the value is its number of nodes.
pub fn next_plan(plan: &[u8], out: &mut [u8]) -> u32 {
    // SAFETY: as for `rewrite`.
    unsafe { raw::vulcedar_next_plan(plan.as_ptr(), plan.len(), out.as_mut_ptr(), out.len()) }
}

/// Checks a plan and writes every node's depth.
pub fn check_depths(plan: &[u8], depths: &mut [u8]) -> u32 {
    // SAFETY: as for `rewrite`.
    unsafe { raw::vulcedar_check_depths(plan.as_ptr(), plan.len(), depths.as_mut_ptr(), depths.len()) }
}

/// Writes a guard to the front of the buffer; the value is its length, and
/// its rule stands in the place of a site.
pub fn guard(plan: &[u8], code: u32, node: u32, buffer: &mut [u8]) -> u32 {
    // SAFETY: as for `rewrite`.
    unsafe { raw::vulcedar_guard(plan.as_ptr(), plan.len(), code, node, buffer.as_mut_ptr(), buffer.len()) }
}

/// The rule of an event, as the value.
pub fn rule(plan: &[u8], code: u32, node: u32) -> u32 {
    // SAFETY: as for `check`.
    unsafe { raw::vulcedar_rule(plan.as_ptr(), plan.len(), code, node) }
}

/// An event at its site, by the site's row; the value is the rule of one that
/// passes.
pub fn step(plan: &[u8], code: u32, node: u32, row: &mut [u8]) -> u32 {
    // SAFETY: as for `rewrite`.
    unsafe { raw::vulcedar_step(plan.as_ptr(), plan.len(), code, node, row.as_mut_ptr(), row.len()) }
}

/// A message into a site's row.
pub fn hear(plan: &[u8], code: u32, node: u32, row: &mut [u8]) -> u32 {
    // SAFETY: as for `rewrite`.
    unsafe { raw::vulcedar_hear(plan.as_ptr(), plan.len(), code, node, row.as_mut_ptr(), row.len()) }
}

/// The single pass.
pub fn pass(plan: &[u8], answers: &[u8], marks: &mut [u8]) -> u32 {
    // SAFETY: as for `rewrite`.
    unsafe {
        raw::vulcedar_pass(
            plan.as_ptr(),
            plan.len(),
            answers.as_ptr(),
            answers.len(),
            marks.as_mut_ptr(),
            marks.len(),
        )
    }
}

/// The single pass with one task's answer changed, over marks that are those of
/// the pass over the answers.
pub fn impact(plan: &[u8], answers: &[u8], marks: &mut [u8], task: u32, answer: u32) -> u32 {
    // SAFETY: as for `rewrite`.
    unsafe {
        raw::vulcedar_impact(
            plan.as_ptr(),
            plan.len(),
            answers.as_ptr(),
            answers.len(),
            marks.as_mut_ptr(),
            marks.len(),
            task,
            answer,
        )
    }
}

/// The smallest list of answers with which the pass leaves a mark at a node and
/// an end at the root.
pub fn way(plan: &[u8], node: u32, mark: u32, end: u32, answers: &mut [u8]) -> u32 {
    // SAFETY: as for `rewrite`.
    unsafe {
        raw::vulcedar_way(plan.as_ptr(), plan.len(), node, mark, end, answers.as_mut_ptr(), answers.len())
    }
}

/// A step of a simulation: an event if the site is 255, else a message to
/// that site. The value is the rule of an event that passes.
pub fn simulate(plan: &[u8], code: u32, node: u32, site: u32, state: &mut [u8]) -> u32 {
    // SAFETY: as for `rewrite`.
    unsafe {
        raw::vulcedar_simulate(plan.as_ptr(), plan.len(), code, node, site, state.as_mut_ptr(), state.len())
    }
}

/// A step of a simulation, kept as an entry at the place that the count has.
/// Answers as `simulate` does.
pub fn keep(
    plan: &[u8],
    code: u32,
    node: u32,
    site: u32,
    state: &mut [u8],
    entries: &mut [Entry],
    count: &mut usize,
) -> u32 {
    // SAFETY: as for `rewrite`; the count is lent for writing alone too.
    unsafe {
        raw::vulcedar_keep(
            plan.as_ptr(),
            plan.len(),
            code,
            node,
            site,
            state.as_mut_ptr(),
            state.len(),
            entries.as_mut_ptr(),
            entries.len(),
            count,
        )
    }
}

/// Takes the last kept step back.
pub fn undo(plan: &[u8], state: &mut [u8], entries: &[Entry], count: &mut usize) -> u32 {
    // SAFETY: as for `keep`.
    unsafe {
        raw::vulcedar_undo(
            plan.as_ptr(),
            plan.len(),
            state.as_mut_ptr(),
            state.len(),
            entries.as_ptr(),
            entries.len(),
            count,
        )
    }
}

/// Names the current place of a journal. Of the names each slot has eight
/// bytes, of the places one word.
pub fn point_name(name: &[u8], count: usize, names: &mut [u8], places: &mut [u64]) -> u32 {
    // SAFETY: as for `rewrite`.
    unsafe {
        raw::vulcedar_point_name(
            name.as_ptr(),
            name.len(),
            count,
            names.as_mut_ptr(),
            names.len(),
            places.as_mut_ptr(),
            places.len(),
        )
    }
}

/// Takes the last kept step back, and drops the points past the new count.
pub fn point_undo(
    plan: &[u8],
    state: &mut [u8],
    entries: &[Entry],
    count: &mut usize,
    names: &mut [u8],
    places: &mut [u64],
) -> u32 {
    // SAFETY: as for `keep`.
    unsafe {
        raw::vulcedar_point_undo(
            plan.as_ptr(),
            plan.len(),
            state.as_mut_ptr(),
            state.len(),
            entries.as_ptr(),
            entries.len(),
            count,
            names.as_mut_ptr(),
            names.len(),
            places.as_mut_ptr(),
            places.len(),
        )
    }
}

/// Goes back to the point of a name.
pub fn point_back(
    plan: &[u8],
    name: &[u8],
    state: &mut [u8],
    entries: &[Entry],
    count: &mut usize,
    names: &mut [u8],
    places: &mut [u64],
) -> u32 {
    // SAFETY: as for `keep`.
    unsafe {
        raw::vulcedar_point_back(
            plan.as_ptr(),
            plan.len(),
            name.as_ptr(),
            name.len(),
            state.as_mut_ptr(),
            state.len(),
            entries.as_ptr(),
            entries.len(),
            count,
            names.as_mut_ptr(),
            names.len(),
            places.as_mut_ptr(),
            places.len(),
        )
    }
}

/// The end record of a simulation's state.
pub fn record(plan: &[u8], state: &[u8], marks: &mut [u8], classes: &mut [u8]) -> u32 {
    // SAFETY: as for `rewrite`.
    unsafe {
        raw::vulcedar_record(
            plan.as_ptr(),
            plan.len(),
            state.as_ptr(),
            state.len(),
            marks.as_mut_ptr(),
            marks.len(),
            classes.as_mut_ptr(),
            classes.len(),
        )
    }
}

/// The end record by a table of classes that is handed in.
pub fn record_by(plan: &[u8], table: &[u8], state: &[u8], marks: &mut [u8], classes: &mut [u8]) -> u32 {
    // SAFETY: as for `rewrite`.
    unsafe {
        raw::vulcedar_record_by(
            plan.as_ptr(),
            plan.len(),
            table.as_ptr(),
            table.len(),
            state.as_ptr(),
            state.len(),
            marks.as_mut_ptr(),
            marks.len(),
            classes.as_mut_ptr(),
            classes.len(),
        )
    }
}

/// Checks a table of classes.
pub fn check_table(table: &[u8]) -> u32 {
    // SAFETY: as for `check`.
    unsafe { raw::vulcedar_check_table(table.as_ptr(), table.len()) }
}

/// The record of the single pass, by a table of classes.
pub fn pass_record(plan: &[u8], table: &[u8], answers: &[u8], marks: &mut [u8], classes: &mut [u8]) -> u32 {
    // SAFETY: as for `rewrite`.
    unsafe {
        raw::vulcedar_pass_record(
            plan.as_ptr(),
            plan.len(),
            table.as_ptr(),
            table.len(),
            answers.as_ptr(),
            answers.len(),
            marks.as_mut_ptr(),
            marks.len(),
            classes.as_mut_ptr(),
            classes.len(),
        )
    }
}

/// Checks a plan with desks.
pub fn desk_check(plan: &[u8]) -> u32 {
    // SAFETY: as for `check`.
    unsafe { raw::vulcedar_desk_check(plan.as_ptr(), plan.len()) }
}

/// An event at its desk, by the desk's row; the value is the rule of one that
/// passes.
pub fn desk_step(plan: &[u8], code: u32, node: u32, row: &mut [u8]) -> u32 {
    // SAFETY: as for `rewrite`.
    unsafe { raw::vulcedar_desk_step(plan.as_ptr(), plan.len(), code, node, row.as_mut_ptr(), row.len()) }
}

/// A step of a simulation with desks: an event if the desk is 255, else a
/// message to that desk. The value is the rule of an event that passes.
pub fn desk_simulate(plan: &[u8], code: u32, node: u32, desk: u32, state: &mut [u8]) -> u32 {
    // SAFETY: as for `rewrite`.
    unsafe {
        raw::vulcedar_desk_simulate(
            plan.as_ptr(),
            plan.len(),
            code,
            node,
            desk,
            state.as_mut_ptr(),
            state.len(),
        )
    }
}

/// A step of a simulation with desks, kept as an entry at the place that the
/// count has. Answers as `desk_simulate` does.
pub fn desk_keep(
    plan: &[u8],
    code: u32,
    node: u32,
    desk: u32,
    state: &mut [u8],
    entries: &mut [Entry],
    count: &mut usize,
) -> u32 {
    // SAFETY: as for `rewrite`; the count is lent for writing alone too.
    unsafe {
        raw::vulcedar_desk_keep(
            plan.as_ptr(),
            plan.len(),
            code,
            node,
            desk,
            state.as_mut_ptr(),
            state.len(),
            entries.as_mut_ptr(),
            entries.len(),
            count,
        )
    }
}

/// Takes the last kept step back, in a plan with desks.
pub fn desk_undo(plan: &[u8], state: &mut [u8], entries: &[Entry], count: &mut usize) -> u32 {
    // SAFETY: as for `keep`.
    unsafe {
        raw::vulcedar_desk_undo(
            plan.as_ptr(),
            plan.len(),
            state.as_mut_ptr(),
            state.len(),
            entries.as_ptr(),
            entries.len(),
            count,
        )
    }
}

/// The same, and drops the points past the new count.
pub fn desk_point_undo(
    plan: &[u8],
    state: &mut [u8],
    entries: &[Entry],
    count: &mut usize,
    names: &mut [u8],
    places: &mut [u64],
) -> u32 {
    // SAFETY: as for `keep`.
    unsafe {
        raw::vulcedar_desk_point_undo(
            plan.as_ptr(),
            plan.len(),
            state.as_mut_ptr(),
            state.len(),
            entries.as_ptr(),
            entries.len(),
            count,
            names.as_mut_ptr(),
            names.len(),
            places.as_mut_ptr(),
            places.len(),
        )
    }
}

/// Goes back to the point of a name, in a plan with desks.
pub fn desk_point_back(
    plan: &[u8],
    name: &[u8],
    state: &mut [u8],
    entries: &[Entry],
    count: &mut usize,
    names: &mut [u8],
    places: &mut [u64],
) -> u32 {
    // SAFETY: as for `keep`.
    unsafe {
        raw::vulcedar_desk_point_back(
            plan.as_ptr(),
            plan.len(),
            name.as_ptr(),
            name.len(),
            state.as_mut_ptr(),
            state.len(),
            entries.as_ptr(),
            entries.len(),
            count,
            names.as_mut_ptr(),
            names.len(),
            places.as_mut_ptr(),
            places.len(),
        )
    }
}

/// The end record of a state of a plan with desks.
pub fn desk_record(plan: &[u8], state: &[u8], marks: &mut [u8], classes: &mut [u8]) -> u32 {
    // SAFETY: as for `rewrite`.
    unsafe {
        raw::vulcedar_desk_record(
            plan.as_ptr(),
            plan.len(),
            state.as_ptr(),
            state.len(),
            marks.as_mut_ptr(),
            marks.len(),
            classes.as_mut_ptr(),
            classes.len(),
        )
    }
}

/// The same by a table of classes that is handed in.
pub fn desk_record_by(plan: &[u8], table: &[u8], state: &[u8], marks: &mut [u8], classes: &mut [u8]) -> u32 {
    // SAFETY: as for `rewrite`.
    unsafe {
        raw::vulcedar_desk_record_by(
            plan.as_ptr(),
            plan.len(),
            table.as_ptr(),
            table.len(),
            state.as_ptr(),
            state.len(),
            marks.as_mut_ptr(),
            marks.len(),
            classes.as_mut_ptr(),
            classes.len(),
        )
    }
}

/// A simulation from text, into bytes of which there are at least 16,384; the
/// value is how many are written.
pub fn rehearse(text: &[u8], out: &mut [u8]) -> u32 {
    // SAFETY: as for `rewrite`.
    unsafe { raw::vulcedar_rehearse(text.as_ptr(), text.len(), out.as_mut_ptr(), out.len()) }
}

/// Writes a test load: as many steps as the count says, drawn from the seed.
pub fn workload(plan: &[u8], seed: u32, count: u32, out: &mut [u8]) -> u32 {
    // SAFETY: as for `rewrite`.
    unsafe { raw::vulcedar_workload(plan.as_ptr(), plan.len(), seed, count, out.as_mut_ptr(), out.len()) }
}

/// The version of the archive: a byte each for its three numbers.
pub fn version() -> u32 {
    raw::vulcedar_version()
}

/// The central rule; the value is 1 if the event was allowed.
pub fn central(plan: &[u8], code: u32, node: u32, marks: &mut [u8], notes: &mut [u8]) -> u32 {
    // SAFETY: as for `rewrite`.
    unsafe {
        raw::vulcedar_central(
            plan.as_ptr(),
            plan.len(),
            code,
            node,
            marks.as_mut_ptr(),
            marks.len(),
            notes.as_mut_ptr(),
            notes.len(),
        )
    }
}
