//! The functions of libragbasalt.a, as include/ragbasalt.h declares them: a plan is 446 words, a
//! memory 33, a card 36, a system 246, a run 281; bins are 1,813 bytes.

// The archive is looked for where the program is linked, not before.
#[link(name = "ragbasalt", kind = "static", modifiers = "-bundle")]
extern "C" {
    pub fn ragbasalt_version_4() -> u64;
    pub fn ragbasalt_plan_read(text: *const u8, text_length: usize, plan: *mut u64) -> u64;
    pub fn ragbasalt_plan_write(
        plan: *const u64,
        text: *mut u8,
        text_length: usize,
        count: *mut usize,
    ) -> u64;
    pub fn ragbasalt_plan_check(plan: *const u64) -> u64;
    pub fn ragbasalt_plan_period(plan: *const u64, period: *mut usize) -> u64;
    pub fn ragbasalt_plan_histories(
        plan: *const u64,
        frames: usize,
        masks: *mut u8,
        masks_length: usize,
        count: *mut usize,
    ) -> u64;
    pub fn ragbasalt_message_size(plan: *const u64) -> usize;
    pub fn ragbasalt_mailbox_size(plan: *const u64) -> usize;
    pub fn ragbasalt_faults_size(plan: *const u64) -> usize;
    pub fn ragbasalt_text_size(plan: *const u64) -> usize;
    pub fn ragbasalt_node_power_on(plan: *const u64, memory: *mut u64) -> u64;
    pub fn ragbasalt_node_compute(
        plan: *const u64,
        memory: *mut u64,
        sensors: *const u64,
        sensors_length: usize,
    ) -> u64;
    pub fn ragbasalt_node_message(
        plan: *const u64,
        memory: *const u64,
        message: *mut u8,
        message_length: usize,
    ) -> u64;
    pub fn ragbasalt_node_vote(
        plan: *const u64,
        memory: *mut u64,
        mailbox: *const u8,
        mailbox_length: usize,
        agreement: *mut usize,
    ) -> u64;
    pub fn ragbasalt_node_setpoints(
        plan: *const u64,
        memory: *const u64,
        setpoints: *mut u64,
        setpoints_length: usize,
    ) -> u64;
    pub fn ragbasalt_single_frame(
        plan: *const u64,
        memory: *mut u64,
        sensors: *const u64,
        sensors_length: usize,
        setpoints: *mut u64,
        setpoints_length: usize,
    ) -> u64;
    pub fn ragbasalt_card_power_on(plan: *const u64, card: *mut u64, bins: *mut u8) -> u64;
    pub fn ragbasalt_card_read(plan: *const u64, card: *const u64, at: u64, value: *mut u8) -> u64;
    pub fn ragbasalt_card_write(plan: *const u64, card: *mut u64, at: u64, value: u8) -> u64;
    pub fn ragbasalt_card_deliver(
        plan: *const u64,
        card: *mut u64,
        bins: *mut u8,
        number: u64,
        message: *const u8,
        message_length: usize,
    ) -> u64;
    pub fn ragbasalt_card_tick(
        plan: *const u64,
        card: *mut u64,
        bins: *mut u8,
        sensors: *const u64,
        sensors_length: usize,
        setpoints: *mut u64,
        setpoints_length: usize,
    ) -> u64;
    pub fn ragbasalt_system_power_on(plan: *const u64, system: *mut u64) -> u64;
    pub fn ragbasalt_system_frame(
        plan: *const u64,
        system: *mut u64,
        sensors: *const u64,
        sensors_length: usize,
        mask: u64,
        faults: *const u8,
        faults_length: usize,
        setpoints: *mut u64,
        setpoints_length: usize,
        agreement: *mut usize,
    ) -> u64;
    pub fn ragbasalt_system_working(
        plan: *const u64,
        system: *const u64,
        mask: u64,
        count: *mut usize,
    ) -> u64;
    pub fn ragbasalt_system_equal(
        plan: *const u64,
        system: *const u64,
        memory: *const u64,
        count: *mut usize,
    ) -> u64;
    pub fn ragbasalt_listing_start(
        text: *const u8,
        text_length: usize,
        plan: *mut u64,
        run: *mut u64,
    ) -> u64;
    pub fn ragbasalt_listing_next(
        plan: *const u64,
        run: *mut u64,
        rest: *const u8,
        rest_length: usize,
        line: *mut u8,
        line_length: usize,
        count: *mut usize,
    ) -> u64;
    pub fn ragbasalt_listing_refusal(
        answer: u64,
        line: *mut u8,
        line_length: usize,
        count: *mut usize,
    ) -> u64;
}
