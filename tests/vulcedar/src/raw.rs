//! The archive's functions as C declares them (include/vulcedar.h).

/// `vulcedar_entry`: its four bytes code, node, site and changed, in this order.
pub type Entry = [u8; 4];

unsafe extern "C" {
    pub fn vulcedar_check(plan: *const u8, plan_length: usize) -> u32;

    pub fn vulcedar_rewrite(plan: *const u8, plan_length: usize, out: *mut u8, out_length: usize) -> u32;

    pub fn vulcedar_renumber(plan: *const u8, plan_length: usize, out: *mut u8, out_length: usize) -> u32;

    pub fn vulcedar_to_depths(plan: *const u8, plan_length: usize, out: *mut u8, out_length: usize) -> u32;

    pub fn vulcedar_from_depths(
        depths: *const u8,
        depths_length: usize,
        out: *mut u8,
        out_length: usize,
    ) -> u32;

    pub fn vulcedar_repeat(
        plan: *const u8,
        plan_length: usize,
        node: u32,
        count: u32,
        out: *mut u8,
        out_length: usize,
    ) -> u32;

    pub fn vulcedar_next_plan(plan: *const u8, plan_length: usize, out: *mut u8, out_length: usize) -> u32;

    pub fn vulcedar_check_depths(
        plan: *const u8,
        plan_length: usize,
        depths: *mut u8,
        depths_length: usize,
    ) -> u32;

    pub fn vulcedar_guard(
        plan: *const u8,
        plan_length: usize,
        code: u32,
        node: u32,
        buffer: *mut u8,
        buffer_length: usize,
    ) -> u32;

    pub fn vulcedar_rule(plan: *const u8, plan_length: usize, code: u32, node: u32) -> u32;

    pub fn vulcedar_step(
        plan: *const u8,
        plan_length: usize,
        code: u32,
        node: u32,
        row: *mut u8,
        row_length: usize,
    ) -> u32;

    pub fn vulcedar_hear(
        plan: *const u8,
        plan_length: usize,
        code: u32,
        node: u32,
        row: *mut u8,
        row_length: usize,
    ) -> u32;

    pub fn vulcedar_pass(
        plan: *const u8,
        plan_length: usize,
        answers: *const u8,
        answers_length: usize,
        marks: *mut u8,
        marks_length: usize,
    ) -> u32;

    pub fn vulcedar_impact(
        plan: *const u8,
        plan_length: usize,
        answers: *const u8,
        answers_length: usize,
        marks: *mut u8,
        marks_length: usize,
        task: u32,
        answer: u32,
    ) -> u32;

    pub fn vulcedar_way(
        plan: *const u8,
        plan_length: usize,
        node: u32,
        mark: u32,
        end: u32,
        answers: *mut u8,
        answers_length: usize,
    ) -> u32;

    pub fn vulcedar_simulate(
        plan: *const u8,
        plan_length: usize,
        code: u32,
        node: u32,
        site: u32,
        state: *mut u8,
        state_length: usize,
    ) -> u32;

    pub fn vulcedar_keep(
        plan: *const u8,
        plan_length: usize,
        code: u32,
        node: u32,
        site: u32,
        state: *mut u8,
        state_length: usize,
        entries: *mut Entry,
        entries_length: usize,
        count: *mut usize,
    ) -> u32;

    pub fn vulcedar_undo(
        plan: *const u8,
        plan_length: usize,
        state: *mut u8,
        state_length: usize,
        entries: *const Entry,
        entries_length: usize,
        count: *mut usize,
    ) -> u32;

    pub fn vulcedar_point_name(
        name: *const u8,
        name_length: usize,
        count: usize,
        names: *mut u8,
        names_length: usize,
        places: *mut u64,
        places_length: usize,
    ) -> u32;

    pub fn vulcedar_point_undo(
        plan: *const u8,
        plan_length: usize,
        state: *mut u8,
        state_length: usize,
        entries: *const Entry,
        entries_length: usize,
        count: *mut usize,
        names: *mut u8,
        names_length: usize,
        places: *mut u64,
        places_length: usize,
    ) -> u32;

    pub fn vulcedar_point_back(
        plan: *const u8,
        plan_length: usize,
        name: *const u8,
        name_length: usize,
        state: *mut u8,
        state_length: usize,
        entries: *const Entry,
        entries_length: usize,
        count: *mut usize,
        names: *mut u8,
        names_length: usize,
        places: *mut u64,
        places_length: usize,
    ) -> u32;

    pub fn vulcedar_record(
        plan: *const u8,
        plan_length: usize,
        state: *const u8,
        state_length: usize,
        marks: *mut u8,
        marks_length: usize,
        classes: *mut u8,
        classes_length: usize,
    ) -> u32;

    pub fn vulcedar_record_by(
        plan: *const u8,
        plan_length: usize,
        table: *const u8,
        table_length: usize,
        state: *const u8,
        state_length: usize,
        marks: *mut u8,
        marks_length: usize,
        classes: *mut u8,
        classes_length: usize,
    ) -> u32;

    pub fn vulcedar_check_table(table: *const u8, table_length: usize) -> u32;

    pub fn vulcedar_pass_record(
        plan: *const u8,
        plan_length: usize,
        table: *const u8,
        table_length: usize,
        answers: *const u8,
        answers_length: usize,
        marks: *mut u8,
        marks_length: usize,
        classes: *mut u8,
        classes_length: usize,
    ) -> u32;

    pub fn vulcedar_desk_check(plan: *const u8, plan_length: usize) -> u32;

    pub fn vulcedar_desk_step(
        plan: *const u8,
        plan_length: usize,
        code: u32,
        node: u32,
        row: *mut u8,
        row_length: usize,
    ) -> u32;

    pub fn vulcedar_desk_simulate(
        plan: *const u8,
        plan_length: usize,
        code: u32,
        node: u32,
        desk: u32,
        state: *mut u8,
        state_length: usize,
    ) -> u32;

    pub fn vulcedar_desk_keep(
        plan: *const u8,
        plan_length: usize,
        code: u32,
        node: u32,
        desk: u32,
        state: *mut u8,
        state_length: usize,
        entries: *mut Entry,
        entries_length: usize,
        count: *mut usize,
    ) -> u32;

    pub fn vulcedar_desk_undo(
        plan: *const u8,
        plan_length: usize,
        state: *mut u8,
        state_length: usize,
        entries: *const Entry,
        entries_length: usize,
        count: *mut usize,
    ) -> u32;

    pub fn vulcedar_desk_point_undo(
        plan: *const u8,
        plan_length: usize,
        state: *mut u8,
        state_length: usize,
        entries: *const Entry,
        entries_length: usize,
        count: *mut usize,
        names: *mut u8,
        names_length: usize,
        places: *mut u64,
        places_length: usize,
    ) -> u32;

    pub fn vulcedar_desk_point_back(
        plan: *const u8,
        plan_length: usize,
        name: *const u8,
        name_length: usize,
        state: *mut u8,
        state_length: usize,
        entries: *const Entry,
        entries_length: usize,
        count: *mut usize,
        names: *mut u8,
        names_length: usize,
        places: *mut u64,
        places_length: usize,
    ) -> u32;

    pub fn vulcedar_desk_record(
        plan: *const u8,
        plan_length: usize,
        state: *const u8,
        state_length: usize,
        marks: *mut u8,
        marks_length: usize,
        classes: *mut u8,
        classes_length: usize,
    ) -> u32;

    pub fn vulcedar_desk_record_by(
        plan: *const u8,
        plan_length: usize,
        table: *const u8,
        table_length: usize,
        state: *const u8,
        state_length: usize,
        marks: *mut u8,
        marks_length: usize,
        classes: *mut u8,
        classes_length: usize,
    ) -> u32;

    pub fn vulcedar_rehearse(text: *const u8, text_length: usize, out: *mut u8, out_length: usize) -> u32;

    pub fn vulcedar_workload(
        plan: *const u8,
        plan_length: usize,
        seed: u32,
        count: u32,
        out: *mut u8,
        out_length: usize,
    ) -> u32;

    pub safe fn vulcedar_version() -> u32;

    pub fn vulcedar_central(
        plan: *const u8,
        plan_length: usize,
        code: u32,
        node: u32,
        marks: *mut u8,
        marks_length: usize,
        notes: *mut u8,
        notes_length: usize,
    ) -> u32;
}
