/* Every struct and function of include/ragbasalt.h, as C11 and as C++17: prints the whole listing of plan.txt and run.txt in the current folder, by the calls on the system and, beside them, by
 * those on one node, on a card and on a run. Exit status 1 where something is not as it has to be; the numbers and lines of refusals are tested too. */
#include <inttypes.h>
#include <stdio.h>
#include <stdlib.h>
#include <string.h>

#include "ragbasalt.h"

static int failures;

static void hold(int right, const char *what)
{
    if (!right) {
        fprintf(stderr, "header: %s\n", what);
        failures++;
    }
}

#define HOLD(condition) hold((condition) != 0, #condition)

static ragbasalt_answer refusal(unsigned number, uint64_t line)
{
    return number + 256 * line;
}

static size_t contents(const char *name, uint8_t *bytes, size_t room)
{
    FILE *file = fopen(name, "rb");
    size_t count = file == NULL ? 0 : fread(bytes, 1, room, file);
    if (file != NULL)
        fclose(file);
    return count;
}

/* The number of a column. */
static uint64_t column(const uint8_t *text, size_t width)
{
    char digits[21];
    memcpy(digits, text, width);
    digits[width] = 0;
    return strtoull(digits, NULL, 10);
}

/* The fields of the structs are what their names say: the plan's lines, one by one. */
static void fields(const ragbasalt_plan *plan, const uint8_t *text, size_t length)
{
    static const size_t widths[] = {4, 4, 4, 4, 20, 20};
    uint64_t n[6], votes[RAGBASALT_MAX_FRAMES] = {0};
    size_t line, i, at, cells = 0, tasks = 0, actuators = 0;
    const ragbasalt_task *task;
    for (line = 0; line < length; line += 57) {
        for (i = 0, at = line; i < 6; at += widths[i++])
            n[i] = column(text + at, widths[i]);
        if (n[0] == 0)
            HOLD(n[1] == plan->nodes && n[2] == plan->frames && n[3] == plan->cells && n[4] == plan->sensors && n[5] == plan->actuators);
        else if (n[0] == 1)
            HOLD(n[4] == plan->initial[cells++]);
        else if (n[0] == 20)
            votes[n[1]] |= UINT64_C(1) << n[2];
        else if (n[0] == 30)
            HOLD(n[2] == plan->actuator_cells[actuators++]);
        else {
            task = &plan->tasks[tasks++];
            HOLD(n[0] >= RAGBASALT_TAKE && n[0] <= RAGBASALT_CAM && n[0] == task->kind && n[1] == task->frame && n[2] == task->target);
            HOLD(n[3] == task->source && n[4] == task->first && n[5] == task->second);
        }
    }
    HOLD(cells == plan->cells && tasks == plan->task_count && actuators == plan->actuators && memcmp(votes, plan->votes, sizeof votes) == 0);
}

/* A plan and its text. */
static void plans(const ragbasalt_plan *plan, uint8_t *text, size_t length)
{
    static uint8_t written[RAGBASALT_MAX_TEXT_BYTES + 1];
    static ragbasalt_plan other, zero;
    static ragbasalt_run run, none;
    size_t count = 1, period = 1;
    size_t n = (size_t)plan->nodes, c = (size_t)plan->cells, a = (size_t)plan->actuators;
    HOLD(ragbasalt_plan_check(plan) == RAGBASALT_DONE && ragbasalt_plan_check(&zero) == RAGBASALT_REFUSED_PLAN);
    HOLD(ragbasalt_plan_period(plan, &period) == RAGBASALT_DONE && period > 0);
    HOLD(ragbasalt_plan_period(&zero, &period) == RAGBASALT_REFUSED_PLAN && period == 0);
    HOLD(ragbasalt_message_size(plan) == 2 + 8 * c && ragbasalt_message_size(plan) <= RAGBASALT_MAX_MESSAGE_BYTES && ragbasalt_message_size(&zero) == 0);
    HOLD(ragbasalt_mailbox_size(plan) == n * (2 + 8 * c) && ragbasalt_mailbox_size(plan) <= RAGBASALT_MAX_MAILBOX_BYTES && ragbasalt_mailbox_size(&zero) == 0);
    HOLD(ragbasalt_faults_size(plan) == n * ((n + 1) * (2 + 8 * c) + 8 * a) && ragbasalt_faults_size(plan) <= RAGBASALT_MAX_FAULTS_BYTES && ragbasalt_faults_size(&zero) == 0);
    HOLD(ragbasalt_text_size(plan) == length && ragbasalt_text_size(&zero) == 0);
    HOLD(ragbasalt_plan_write(plan, written, sizeof written, &count) == RAGBASALT_DONE && count == length && memcmp(text, written, length) == 0);
    HOLD(ragbasalt_plan_write(plan, written, length - 1, &count) == RAGBASALT_REFUSED_LENGTH && count == 0);
    HOLD(ragbasalt_plan_write(&zero, written, 0, &count) == RAGBASALT_REFUSED_PLAN && count == 0);
    HOLD(ragbasalt_plan_read(text, 0, &other) == RAGBASALT_REFUSED_TEXT_LENGTH);
    HOLD(ragbasalt_listing_start(text, length + 1, &other, &run) == RAGBASALT_REFUSED_TEXT_LENGTH);
    text[length - 1] = ' ';
    HOLD(ragbasalt_plan_read(text, length, &other) == refusal(RAGBASALT_REFUSED_MALFORMED, length / 57));
    HOLD(ragbasalt_listing_start(text, length, &other, &run) == refusal(RAGBASALT_REFUSED_MALFORMED, length / 57));
    text[length - 1] = '\n';
    text[3] = '1';
    HOLD(ragbasalt_plan_read(text, length, &other) == refusal(RAGBASALT_REFUSED_HEADER, 1));
    text[3] = '0';
    HOLD(ragbasalt_plan_read(text, length - 57, &other) == refusal(RAGBASALT_REFUSED_ORDER, length / 57));
    text[length - 2] = '1';
    HOLD(ragbasalt_plan_read(text, length, &other) == refusal(RAGBASALT_REFUSED_RANGE, length / 57));
    text[length - 2] = '0';
    HOLD(memcmp(&other, &zero, sizeof zero) == 0 && memcmp(&run, &none, sizeof none) == 0);
}

/* A plan without a recovery period: one cell that nothing writes and no vote covers. */
static void unrecoverable(void)
{
    static ragbasalt_plan plan;
    char text[3 * 57 + 1];
    snprintf(text, 58, "%4d%4d%4d%4d%20d%20d\n", 0, 3, 1, 1, 1, 1);
    snprintf(text + 57, 58, "%4d%4d%4d%4d%20d%20d\n", 1, 0, 0, 0, 0, 0);
    snprintf(text + 114, 58, "%4d%4d%4d%4d%20d%20d\n", 30, 0, 0, 0, 0, 0);
    HOLD(ragbasalt_plan_read((const uint8_t *)text, 3 * 57, &plan) == RAGBASALT_REFUSED_UNRECOVERABLE && plan.nodes == 0);
}

/* How many histories of length 3 a press has: by its nodes, and by whether the recovery period is 1. */
static size_t three(size_t nodes, size_t period)
{
    static const size_t one[] = {1, 1, 28, 41, 916}, longer[] = {1, 1, 22, 29, 526};
    return period == 1 ? one[nodes - 1] : longer[nodes - 1];
}

/* The fault histories; plan K, with three nodes and the recovery period 3, has 22 of length 3. */
static void histories(const ragbasalt_plan *plan)
{
    static uint8_t masks[RAGBASALT_MAX_HISTORIES_BYTES + 1], untouched[RAGBASALT_MAX_HISTORIES_BYTES + 1];
    static ragbasalt_plan zero;
    size_t n = (size_t)plan->nodes, period = 0, frames, count, bytes, i;
    memset(masks, 255, sizeof masks);
    memset(untouched, 255, sizeof untouched);
    HOLD(ragbasalt_plan_period(plan, &period) == RAGBASALT_DONE);
    count = 9;
    HOLD(ragbasalt_plan_histories(&zero, 0, masks, 0, &count) == RAGBASALT_REFUSED_PLAN && count == 0);
    for (frames = 0; frames <= RAGBASALT_MAX_HISTORIES_FRAMES + 1; frames++) {
        count = 9;
        if (n > RAGBASALT_MAX_HISTORIES_NODES || frames == 0 || frames > RAGBASALT_MAX_HISTORIES_FRAMES) {
            HOLD(ragbasalt_plan_histories(plan, frames, masks, 0, &count) == RAGBASALT_REFUSED_HISTORIES && count == 0);
            count = 9;
            HOLD(ragbasalt_plan_histories(plan, frames, masks, sizeof masks, &count) == RAGBASALT_REFUSED_HISTORIES && count == 0);
            HOLD(memcmp(masks, untouched, sizeof masks) == 0);
            continue;
        }
        HOLD(ragbasalt_plan_histories(plan, frames, masks, RAGBASALT_MAX_HISTORIES_BYTES, &count) == RAGBASALT_DONE && count > 0);
        HOLD(frames != 3 || count == three(n, period));
        bytes = count * frames;
        HOLD(bytes <= RAGBASALT_MAX_HISTORIES_BYTES);
        if (bytes > RAGBASALT_MAX_HISTORIES_BYTES)
            return;
        HOLD(memcmp(masks + bytes, untouched, sizeof masks - bytes) == 0);
        for (i = 0; i < frames; i++)
            HOLD(masks[i] == 0);
        for (i = 1; i < count; i++)
            HOLD(memcmp(masks + (i - 1) * frames, masks + i * frames, frames) < 0);
        memset(masks, 255, sizeof masks);
        HOLD(ragbasalt_plan_histories(plan, frames, masks, bytes - 1, &count) == RAGBASALT_REFUSED_LENGTH && count == 0);
        HOLD(memcmp(masks, untouched, sizeof masks) == 0);
        HOLD(ragbasalt_plan_histories(plan, frames, masks, bytes, &count) == RAGBASALT_DONE && count == bytes / frames);
        memset(masks, 255, sizeof masks);
    }
}

/* A frame of node 0 by the calls on one node, all nodes being as it is; the memory that the single controller has after it. */
static void node(const ragbasalt_plan *plan, const ragbasalt_memory *before, const ragbasalt_memory *after, const uint64_t *sensors, const uint64_t *expected)
{
    ragbasalt_memory memory = *before;
    uint8_t mailbox[RAGBASALT_MAX_MAILBOX_BYTES];
    uint64_t setpoints[RAGBASALT_MAX_ACTUATORS];
    size_t bytes = ragbasalt_message_size(plan), n = (size_t)plan->nodes, s = (size_t)plan->sensors, a = (size_t)plan->actuators, i, agreement = 9;
    /* Bits of a counter above the low 16 count for nothing, and stay beside a refusal. */
    memory.counter += UINT64_C(65536);
    HOLD(ragbasalt_node_compute(plan, &memory, sensors, s + 1) == RAGBASALT_REFUSED_LENGTH && memory.counter == before->counter + 65536);
    HOLD(ragbasalt_node_compute(plan, &memory, sensors, s) == RAGBASALT_DONE && memory.counter == after->counter);
    for (i = 0; i < n; i++)
        HOLD(ragbasalt_node_message(plan, &memory, mailbox + i * bytes, bytes) == RAGBASALT_DONE);
    HOLD(ragbasalt_node_message(plan, &memory, mailbox, bytes - 1) == RAGBASALT_REFUSED_LENGTH);
    HOLD(ragbasalt_node_vote(plan, &memory, mailbox, n * bytes - 1, &agreement) == RAGBASALT_REFUSED_LENGTH && agreement == 0);
    HOLD(ragbasalt_node_vote(plan, &memory, mailbox, n * bytes, &agreement) == RAGBASALT_DONE && agreement == n);
    HOLD(ragbasalt_node_setpoints(plan, &memory, setpoints, a - 1) == RAGBASALT_REFUSED_LENGTH);
    HOLD(ragbasalt_node_setpoints(plan, &memory, setpoints, a) == RAGBASALT_DONE && memcmp(setpoints, expected, 8 * a) == 0);
    HOLD(memcmp(&memory, after, sizeof memory) == 0);
}

/* The page of a card, byte by byte; what is past it is refused, also where the low bits are a byte's. */
static void page(const ragbasalt_plan *plan, const ragbasalt_card *card, unsigned phase, unsigned flags, unsigned mask)
{
    static ragbasalt_plan zero;
    unsigned bytes[RAGBASALT_PAGE_BYTES] = {0};
    uint8_t value;
    uint64_t at;
    bytes[RAGBASALT_PAGE_COUNTER] = (unsigned)(card->memory.counter >> 8 & 255);
    bytes[RAGBASALT_PAGE_COUNTER + 1] = (unsigned)(card->memory.counter & 255);
    bytes[RAGBASALT_PAGE_PHASE] = phase;
    bytes[RAGBASALT_PAGE_FLAGS] = flags;
    bytes[RAGBASALT_PAGE_MASK] = mask;
    for (at = 0; at < RAGBASALT_PAGE_BYTES; at++) {
        value = 99;
        HOLD(ragbasalt_card_read(plan, card, at, &value) == RAGBASALT_DONE && value == bytes[at]);
        value = 99;
        HOLD(ragbasalt_card_read(plan, card, at + 16, &value) == RAGBASALT_REFUSED_PAGE && value == 0);
        value = 99;
        HOLD(ragbasalt_card_read(plan, card, (UINT64_C(1) << 32) + at, &value) == RAGBASALT_REFUSED_PAGE && value == 0);
    }
    value = 99;
    HOLD(ragbasalt_card_read(&zero, card, 16, &value) == RAGBASALT_REFUSED_PLAN && value == 0);
}

/* Calls on a card that are refused, in any phase: "No refusal changes the card." */
static void refused(const ragbasalt_plan *plan, ragbasalt_card *card, ragbasalt_bins *bins)
{
    static const uint64_t sensors[RAGBASALT_MAX_SENSORS + 1] = {0};
    static const uint8_t message[RAGBASALT_MAX_MESSAGE_BYTES + 1] = {0};
    static ragbasalt_plan zero;
    ragbasalt_card card_before = *card;
    ragbasalt_bins bins_before = *bins;
    uint64_t place[RAGBASALT_MAX_ACTUATORS + 1], at;
    size_t bytes = ragbasalt_message_size(plan), s = (size_t)plan->sensors, a = (size_t)plan->actuators, i;
    for (i = 0; i <= RAGBASALT_MAX_ACTUATORS; i++)
        place[i] = 99 + i;
    for (at = 0; at < 2 * RAGBASALT_PAGE_BYTES; at++)
        HOLD(at == RAGBASALT_PAGE_MASK || at == RAGBASALT_PAGE_CLEAR || ragbasalt_card_write(plan, card, at, 1) == RAGBASALT_REFUSED_PAGE);
    HOLD(ragbasalt_card_write(plan, card, (UINT64_C(1) << 32) + RAGBASALT_PAGE_MASK, 1) == RAGBASALT_REFUSED_PAGE);
    HOLD(ragbasalt_card_write(&zero, card, 16, 1) == RAGBASALT_REFUSED_PLAN && ragbasalt_card_write(&zero, card, RAGBASALT_PAGE_MASK, 1) == RAGBASALT_REFUSED_PLAN);
    HOLD(ragbasalt_card_deliver(plan, card, bins, 0, message, bytes - 1) == RAGBASALT_REFUSED_LENGTH);
    HOLD(ragbasalt_card_deliver(plan, card, bins, UINT64_MAX, message, bytes + 1) == RAGBASALT_REFUSED_LENGTH);
    HOLD(ragbasalt_card_deliver(&zero, card, bins, 0, message, 0) == RAGBASALT_REFUSED_PLAN);
    HOLD(ragbasalt_card_tick(plan, card, bins, sensors, s + 1, place, a) == RAGBASALT_REFUSED_LENGTH);
    HOLD(ragbasalt_card_tick(plan, card, bins, sensors, s, place, a + 1) == RAGBASALT_REFUSED_LENGTH);
    HOLD(ragbasalt_card_tick(&zero, card, bins, sensors, 0, place, 0) == RAGBASALT_REFUSED_PLAN);
    HOLD(ragbasalt_card_power_on(&zero, card, bins) == RAGBASALT_REFUSED_PLAN);
    HOLD(memcmp(card, &card_before, sizeof card_before) == 0 && memcmp(bins, &bins_before, sizeof bins_before) == 0);
    for (i = 0; i <= RAGBASALT_MAX_ACTUATORS; i++)
        HOLD(place[i] == 99 + i);
}

/* A card through one frame, each flag, mask and bin by itself. */
static void cards(const ragbasalt_plan *plan)
{
    static const uint64_t sensors[RAGBASALT_MAX_SENSORS] = {0};
    static ragbasalt_card card, power_on, other;
    static ragbasalt_bins bins, none, filled;
    uint8_t message[RAGBASALT_MAX_MESSAGE_BYTES];
    uint64_t place[RAGBASALT_MAX_ACTUATORS];
    size_t bytes = ragbasalt_message_size(plan), n = (size_t)plan->nodes, s = (size_t)plan->sensors, a = (size_t)plan->actuators, i;
    memset(&card, 255, sizeof card);
    memset(&bins, 255, sizeof bins);
    page(plan, &card, RAGBASALT_PHASE_SYNC, 7, 3);
    refused(plan, &card, &bins);
    HOLD(ragbasalt_node_power_on(plan, &power_on.memory) == RAGBASALT_DONE && ragbasalt_card_power_on(plan, &card, &bins) == RAGBASALT_DONE);
    HOLD(memcmp(&card, &power_on, sizeof card) == 0 && memcmp(&bins, &none, sizeof bins) == 0);
    page(plan, &card, RAGBASALT_PHASE_COMPUTE, 0, 0);
    memset(message, 1, sizeof message);
    memset(place, 1, sizeof place);
    other = card;

    /* Outside phase 1 a delivery gives the card back as it counts, and changes nothing else. */
    card.memory.counter += 65536;
    card.phase = UINT64_MAX - 3;
    card.flags = card.mask = UINT64_MAX - 3;
    refused(plan, &card, &bins);
    HOLD(ragbasalt_card_deliver(plan, &card, &bins, 0, message, bytes) == RAGBASALT_DONE);
    HOLD(memcmp(&card, &other, sizeof card) == 0 && memcmp(&bins, &none, sizeof bins) == 0);

    HOLD(ragbasalt_card_write(plan, &card, RAGBASALT_PAGE_MASK, 255) == RAGBASALT_DONE && card.mask == 3);
    page(plan, &card, RAGBASALT_PHASE_COMPUTE, 0, 3);
    HOLD(ragbasalt_card_tick(plan, &card, &bins, sensors, s, place, a) == RAGBASALT_DONE);
    HOLD(ragbasalt_node_compute(plan, &other.memory, sensors, s) == RAGBASALT_DONE && memcmp(&card.memory, &other.memory, sizeof other.memory) == 0);
    page(plan, &card, RAGBASALT_PHASE_BROADCAST, RAGBASALT_FLAG_TIMER | RAGBASALT_FLAG_LINE, 3);
    refused(plan, &card, &bins);
    HOLD(ragbasalt_card_write(plan, &card, RAGBASALT_PAGE_MASK, RAGBASALT_FLAG_FULL) == RAGBASALT_DONE);
    page(plan, &card, RAGBASALT_PHASE_BROADCAST, RAGBASALT_FLAG_TIMER, RAGBASALT_FLAG_FULL);
    HOLD(ragbasalt_card_write(plan, &card, RAGBASALT_PAGE_CLEAR, 254) == RAGBASALT_DONE && card.flags == RAGBASALT_FLAG_TIMER);
    HOLD(ragbasalt_card_write(plan, &card, RAGBASALT_PAGE_CLEAR, RAGBASALT_FLAG_TIMER) == RAGBASALT_DONE && card.flags == 0);

    /* Bins that were left in a fault's hands are empty unless their mark is 1. From n up there is none. Bit 1 comes with the last empty bin. */
    memset(&bins, 2, sizeof bins);
    filled = bins;
    HOLD(ragbasalt_card_deliver(plan, &card, &bins, n, message, bytes) == RAGBASALT_DONE && ragbasalt_card_deliver(plan, &card, &bins, UINT64_C(1) << 32, message, bytes) == RAGBASALT_DONE);
    HOLD(memcmp(&bins, &filled, sizeof bins) == 0);
    for (i = n; i-- > 0;) {
        page(plan, &card, RAGBASALT_PHASE_BROADCAST, 0, RAGBASALT_FLAG_FULL);
        memset(message, (int)i + 3, sizeof message);
        HOLD(ragbasalt_card_deliver(plan, &card, &bins, i, message, bytes) == RAGBASALT_DONE);
        filled.bytes[i * (1 + bytes)] = 1;
        memset(filled.bytes + i * (1 + bytes) + 1, (int)i + 3, bytes);
        HOLD(memcmp(&bins, &filled, sizeof bins) == 0);
        if (i > 0)
            HOLD(ragbasalt_card_deliver(plan, &card, &bins, i, message, bytes) == RAGBASALT_DONE);
    }
    page(plan, &card, RAGBASALT_PHASE_BROADCAST, RAGBASALT_FLAG_FULL | RAGBASALT_FLAG_LINE, RAGBASALT_FLAG_FULL);

    /* A full bin delivered again is replaced, and does not set bit 1 again. */
    HOLD(ragbasalt_card_write(plan, &card, RAGBASALT_PAGE_CLEAR, 255) == RAGBASALT_DONE && card.flags == 0);
    HOLD(ragbasalt_node_message(plan, &card.memory, message, bytes) == RAGBASALT_DONE);
    for (i = 0; i < n; i++) {
        HOLD(ragbasalt_card_deliver(plan, &card, &bins, i, message, bytes) == RAGBASALT_DONE && card.flags == 0);
        memcpy(filled.bytes + i * (1 + bytes) + 1, message, bytes);
    }
    HOLD(memcmp(&bins, &filled, sizeof bins) == 0);

    /* All n bins are the card's own message: the vote changes nothing. The place is written by the fourth tick alone, which empties the bins and leaves the flags. */
    HOLD(ragbasalt_card_tick(plan, &card, &bins, sensors, s, place, a) == RAGBASALT_DONE && card.phase == RAGBASALT_PHASE_VOTE);
    memset(message, 0, sizeof message);
    HOLD(ragbasalt_card_deliver(plan, &card, &bins, 0, message, bytes) == RAGBASALT_DONE);
    HOLD(ragbasalt_card_tick(plan, &card, &bins, sensors, s, place, a) == RAGBASALT_DONE && card.phase == RAGBASALT_PHASE_SYNC);
    HOLD(memcmp(&bins, &filled, sizeof bins) == 0 && memcmp(&card.memory, &other.memory, sizeof other.memory) == 0);
    for (i = 0; i < RAGBASALT_MAX_ACTUATORS; i++)
        HOLD(place[i] == UINT64_C(0x0101010101010101));
    card.flags = RAGBASALT_FLAG_FULL;
    HOLD(ragbasalt_card_tick(plan, &card, &bins, sensors, s, place, a) == RAGBASALT_DONE);
    page(plan, &card, RAGBASALT_PHASE_COMPUTE, 7, RAGBASALT_FLAG_FULL);
    for (i = 0; i < n; i++)
        filled.bytes[i * (1 + bytes)] = 0;
    HOLD(memcmp(&bins, &filled, sizeof bins) == 0);
    for (i = 0; i < RAGBASALT_MAX_ACTUATORS; i++)
        HOLD(place[i] == (i < a ? other.memory.cells[plan->actuator_cells[i]] : UINT64_C(0x0101010101010101)));
}

/* The next frame of node 0 on a card, all nodes being as it is. A copy of the card gets the messages of nodes 0 to `heard` - 1 alone, and votes on zero bytes for the others. */
static void card_frame(const ragbasalt_plan *plan, ragbasalt_card *card, ragbasalt_bins *bins, const ragbasalt_memory *after, const uint64_t *sensors, const uint64_t *expected, size_t heard)
{
    uint8_t message[RAGBASALT_MAX_MESSAGE_BYTES], mailbox[RAGBASALT_MAX_MAILBOX_BYTES] = {0};
    uint64_t place[RAGBASALT_MAX_ACTUATORS];
    ragbasalt_card copy = *card;
    ragbasalt_bins few = *bins;
    ragbasalt_memory memory;
    size_t bytes = ragbasalt_message_size(plan), n = (size_t)plan->nodes, s = (size_t)plan->sensors, a = (size_t)plan->actuators, i, agreement;
    HOLD(ragbasalt_card_tick(plan, card, bins, sensors, s, place, a) == RAGBASALT_DONE);
    HOLD(ragbasalt_node_message(plan, &card->memory, message, bytes) == RAGBASALT_DONE);
    for (i = 0; i < n; i++) {
        if (i == heard) {
            copy = *card;
            few = *bins;
        }
        if (i >= heard)
            few.bytes[i * (1 + bytes)] = 255; /* no mark of a filled bin */
        else
            memcpy(mailbox + i * bytes, message, bytes);
        HOLD(ragbasalt_card_deliver(plan, card, bins, i, message, bytes) == RAGBASALT_DONE && ((card->flags & RAGBASALT_FLAG_FULL) != 0) == (i + 1 == n));
    }
    memory = copy.memory;
    HOLD(ragbasalt_node_vote(plan, &memory, mailbox, n * bytes, &agreement) == RAGBASALT_DONE);
    for (i = 0; i < 2; i++)
        HOLD(ragbasalt_card_tick(plan, &copy, &few, sensors, s, place, a) == RAGBASALT_DONE && (copy.flags & RAGBASALT_FLAG_FULL) == 0);
    HOLD(memcmp(&copy.memory, &memory, sizeof memory) == 0);
    for (i = 0; i < 3; i++)
        HOLD(ragbasalt_card_tick(plan, card, bins, sensors, s, place, a) == RAGBASALT_DONE);
    HOLD(memcmp(&card->memory, after, sizeof *after) == 0 && memcmp(place, expected, 8 * a) == 0 && card->phase == RAGBASALT_PHASE_COMPUTE);
    HOLD(ragbasalt_card_write(plan, card, RAGBASALT_PAGE_CLEAR, RAGBASALT_FLAG_TIMER | RAGBASALT_FLAG_FULL) == RAGBASALT_DONE && card->flags == 0);
}

/* What the plane hands on of n setpoints: "Of tied values the remembered one wins; if it isn't among them, the old rule decides". */
static uint64_t plane(const uint64_t *put, size_t n, uint64_t remembered)
{
    size_t holders[RAGBASALT_MAX_NODES] = {0}, most = 0, first = 0, i, j;
    for (i = 0; i < n; i++) {
        for (j = 0; j < n; j++)
            holders[i] += put[j] == put[i];
        if (holders[i] > most) {
            most = holders[i];
            first = i;
        }
    }
    for (i = 0; i < n; i++)
        if (holders[i] == most && put[i] == remembered)
            return remembered;
    return put[first];
}

/* The setpoints of a frame by a plane of our own, from the memories after it; what it remembers then. Bad nodes put out `fill`. */
static void planes(const ragbasalt_plan *plan, const ragbasalt_system *before, const ragbasalt_system *after, uint64_t mask, uint64_t fill, const uint64_t *setpoints)
{
    uint64_t put[RAGBASALT_MAX_NODES];
    size_t n = (size_t)plan->nodes, a, i;
    for (a = 0; a < plan->actuators; a++) {
        for (i = 0; i < n; i++)
            put[i] = mask >> i & 1 ? fill : after->nodes[i].cells[plan->actuator_cells[a]];
        HOLD(setpoints[a] == plane(put, n, before->handed[a]) && after->handed[a] == setpoints[a]);
    }
    for (; a < RAGBASALT_MAX_ACTUATORS; a++)
        HOLD(after->handed[a] == before->handed[a]);
}

/* The same frame of a plane that last handed on what bad nodes put out now: of the record and not of the lent place. Memories, counts and agreement are as they were. */
static void remembered(const ragbasalt_plan *plan, const ragbasalt_system *before, const ragbasalt_system *after, const uint64_t *sensors, uint64_t mask, uint64_t fill, const uint8_t *faults,
                       size_t agreement)
{
    static ragbasalt_system other, system;
    uint64_t setpoints[RAGBASALT_MAX_ACTUATORS] = {0};
    size_t a, again = 9;
    other = *before;
    for (a = 0; a < plan->actuators; a++)
        other.handed[a] = fill;
    system = other;
    HOLD(ragbasalt_system_frame(plan, &system, sensors, (size_t)plan->sensors, mask, faults, ragbasalt_faults_size(plan), setpoints, (size_t)plan->actuators, &again) == RAGBASALT_DONE);
    planes(plan, &other, &system, mask, fill, setpoints);
    HOLD(memcmp(&system, after, offsetof(ragbasalt_system, handed)) == 0 && again == agreement);
}

/* The next line by the calls on a run, beside what the calls on the system gave; then calls that are refused. */
static void next(const ragbasalt_plan *plan, ragbasalt_run *run, const uint8_t *rest, size_t length, const char *expected, size_t bytes)
{
    uint8_t line[RAGBASALT_MAX_LINE_BYTES + 1];
    ragbasalt_run before = *run;
    size_t count = 9, one = 9 + 20 * (size_t)plan->sensors;
    memset(line, '.', sizeof line);
    HOLD(ragbasalt_listing_next(plan, run, rest, length, line, bytes - 1, &count) == RAGBASALT_REFUSED_LENGTH && count == 0);
    HOLD(ragbasalt_listing_next(plan, run, rest, one - 1, line, bytes, &count) == refusal(RAGBASALT_REFUSED_RUN_LINE, run->frame + 1) && count == 0);
    run->frame = before.frame + 100000;
    HOLD(ragbasalt_listing_next(plan, run, rest, length, line, bytes, &count) == refusal(RAGBASALT_REFUSED_RUN_LINE, 100001) && count == 0);
    run->frame = before.frame;
    run->system.good[0] += 65536;
    HOLD(ragbasalt_listing_next(plan, run, rest, length, line, bytes, &count) == RAGBASALT_REFUSED_MASK && count == 0);
    run->system.good[0] -= 65536;
    HOLD(memcmp(run, &before, sizeof before) == 0 && line[0] == '.');
    HOLD(ragbasalt_listing_next(plan, run, rest, length, line, sizeof line, &count) == RAGBASALT_DONE && count == bytes && bytes <= RAGBASALT_MAX_LINE_BYTES);
    HOLD(memcmp(line, expected, bytes) == 0 && line[bytes] == '.' && run->frame == before.frame + 1);
}

/* The line of a refusal, as the run program prints it. */
static void refusals(void)
{
    static const struct {
        unsigned number;
        uint64_t line;
        const char *text;
    } lines[] = {{RAGBASALT_REFUSED_TEXT_LENGTH, 0, "   1       0\n"}, {RAGBASALT_REFUSED_RANGE, 617, "   5     617\n"}, {RAGBASALT_REFUSED_RUN_LINE, 100001, "  10  100001\n"}, {RAGBASALT_REFUSED_HISTORIES, 0, "  11       0\n"}, {RAGBASALT_REFUSED_PAGE, 0, "  12       0\n"}};
    uint8_t line[RAGBASALT_REFUSAL_LINE_BYTES + 1];
    size_t i, count;
    for (i = 0; i < sizeof lines / sizeof lines[0]; i++) {
        ragbasalt_answer answer = refusal(lines[i].number, lines[i].line);
        HOLD(ragbasalt_number_of(answer) == lines[i].number && ragbasalt_line_of(answer) == lines[i].line);
        memset(line, '.', sizeof line);
        count = 9;
        HOLD(ragbasalt_listing_refusal(answer, line, sizeof line - 2, &count) == RAGBASALT_REFUSED_LENGTH && count == 0 && line[0] == '.');
        HOLD(ragbasalt_listing_refusal(RAGBASALT_DONE, line, sizeof line, &count) == RAGBASALT_DONE && count == 0 && line[0] == '.');
        HOLD(ragbasalt_listing_refusal(answer, line, sizeof line, &count) == RAGBASALT_DONE && count == RAGBASALT_REFUSAL_LINE_BYTES);
        HOLD(memcmp(line, lines[i].text, RAGBASALT_REFUSAL_LINE_BYTES) == 0 && line[RAGBASALT_REFUSAL_LINE_BYTES] == '.');
    }
}

int main(void)
{
    static ragbasalt_plan plan, zero, listed;
    static ragbasalt_system system, before_frame;
    static ragbasalt_run run;
    static ragbasalt_card on_card;
    static ragbasalt_bins bins;
    static uint8_t text[RAGBASALT_MAX_TEXT_BYTES + 1], lines[1 << 20], faults[RAGBASALT_MAX_FAULTS_BYTES];
    ragbasalt_memory single, before;
    uint64_t sensors[RAGBASALT_MAX_SENSORS + 1] = {0}, setpoints[RAGBASALT_MAX_ACTUATORS], expected[RAGBASALT_MAX_ACTUATORS], mask, fill;
    size_t length = contents("plan.txt", text, sizeof text), whole = contents("run.txt", lines, sizeof lines);
    size_t at, one, s, a, i, working, equal, agreement, count, period;
    char line[RAGBASALT_MAX_LINE_BYTES + 1], *end;

    HOLD(ragbasalt_version_4() == RAGBASALT_VERSION && ragbasalt_arithmetic_holds() == 1);
    HOLD(ragbasalt_plan_read(text, length, &plan) == RAGBASALT_DONE && whole < sizeof lines);
    if (failures)
        return 1;
    fields(&plan, text, length);
    plans(&plan, text, length);
    unrecoverable();
    histories(&plan);
    refusals();
    cards(&plan);
    s = (size_t)plan.sensors;
    a = (size_t)plan.actuators;
    one = 9 + 20 * s;
    memset(&single, 255, sizeof single);
    memset(&system, 255, sizeof system);
    memset(&run, 255, sizeof run);
    HOLD(ragbasalt_node_power_on(&plan, &single) == RAGBASALT_DONE && ragbasalt_system_power_on(&plan, &system) == RAGBASALT_DONE);
    HOLD(single.counter == 0 && memcmp(single.cells, plan.initial, sizeof single.cells) == 0);
    HOLD(ragbasalt_card_power_on(&plan, &on_card, &bins) == RAGBASALT_DONE && memcmp(&on_card.memory, &single, sizeof single) == 0);
    HOLD(ragbasalt_plan_period(&plan, &period) == RAGBASALT_DONE);
    for (i = 0; i < RAGBASALT_MAX_NODES; i++)
        HOLD(system.good[i] == (i < plan.nodes ? period : 0) && memcmp(&system.nodes[i], i < plan.nodes ? (const void *)&single : (const void *)&zero, sizeof single) == 0);
    for (i = 0; i < RAGBASALT_MAX_ACTUATORS; i++)
        HOLD(system.handed[i] == (i < a ? plan.initial[plan.actuator_cells[i]] : 0));
    HOLD(ragbasalt_listing_start(text, length, &listed, &run) == RAGBASALT_DONE && memcmp(&listed, &plan, sizeof plan) == 0);
    HOLD(memcmp(&run.system, &system, sizeof system) == 0 && memcmp(&run.single, &single, sizeof single) == 0 && run.period == period && run.frame == 0);
    /* Any patterns past A stay as they are. */
    for (i = a; i < RAGBASALT_MAX_ACTUATORS; i++)
        system.handed[i] = run.system.handed[i] = UINT64_MAX - i;

    for (at = 0; at + one <= whole; at += one) {
        mask = column(lines + at, 4);
        fill = column(lines + at + 4, 4);
        memset(faults, (int)fill, sizeof faults);
        fill *= UINT64_C(0x0101010101010101);
        for (i = 0; i < s; i++)
            sensors[i] = column(lines + at + 8 + 20 * i, 20);
        before_frame = system;
        HOLD(ragbasalt_system_working(&plan, &system, 128, &working) == RAGBASALT_REFUSED_MASK && working == 0);
        agreement = 9;
        HOLD(ragbasalt_system_frame(&zero, &system, sensors, s, 128, faults, 0, setpoints, a, &agreement) == RAGBASALT_REFUSED_PLAN && agreement == 0);
        agreement = 9;
        HOLD(ragbasalt_system_frame(&plan, &system, sensors, s, 128, faults, 0, setpoints, a, &agreement) == RAGBASALT_REFUSED_MASK && agreement == 0);
        agreement = 9;
        HOLD(ragbasalt_system_frame(&plan, &system, sensors, s, mask, faults, 0, setpoints, a, &agreement) == RAGBASALT_REFUSED_LENGTH && agreement == 0);
        HOLD(memcmp(&system, &before_frame, sizeof system) == 0);
        HOLD(ragbasalt_system_working(&plan, &system, mask, &working) == RAGBASALT_DONE);
        HOLD(ragbasalt_system_frame(&plan, &system, sensors, s, mask, faults, ragbasalt_faults_size(&plan), setpoints, a, &agreement) == RAGBASALT_DONE);
        planes(&plan, &before_frame, &system, mask, fill, setpoints);
        remembered(&plan, &before_frame, &system, sensors, mask, fill, faults, agreement);
        before = single;
        HOLD(ragbasalt_single_frame(&plan, &single, sensors, s, expected, a) == RAGBASALT_DONE);
        HOLD(ragbasalt_system_equal(&plan, &system, &single, &equal) == RAGBASALT_DONE);
        node(&plan, &before, &single, sensors, expected);
        card_frame(&plan, &on_card, &bins, &single, sensors, expected, at / one % (size_t)plan.nodes);
        end = line + snprintf(line, sizeof line, "%8zu%4zu%4zu", at / one, working, equal);
        for (i = 0; i < a; i++)
            end += snprintf(end, 21, "%20" PRIu64, setpoints[i]);
        end += snprintf(end, 6, "%4zu\n", agreement);
        next(&plan, &run, lines + at, whole - at, line, (size_t)(end - line));
        HOLD(memcmp(&run.system, &system, sizeof system) == 0 && memcmp(&run.single, &single, sizeof single) == 0);
        fputs(line, stdout);
    }
    count = 9;
    HOLD(at == whole && ragbasalt_listing_next(&plan, &run, lines, 0, text, sizeof text, &count) == RAGBASALT_DONE && count == 0);
    return failures > 0;
}
