/* A controller on mailbox cards in C: the n nodes of a plan in one process, each a card with its bins and a host that acts on the card's interrupts.
 *
 * It reads plan.txt and run.txt in the current folder, as examples/board does, and prints per frame the frame number (width 8) and the setpoints that the plane hands on
 * (20 each): the listing without its counts of working and equal nodes, which no host can know, and without the agreement, which a card does not give. The frame timer, the
 * bus and the plane are the loops `timer`, `bus` and `plane` below; on a press they are there without us. How many votes lacked a message, if any did, goes to the error
 * output, a refusal too, with exit status 1; where the arithmetic is not the one that the library needs, nothing is computed, and the status is 2. */
#include <inttypes.h>
#include <stdio.h>
#include <stdlib.h>
#include <string.h>

#include "ragbasalt.h"

static ragbasalt_plan plan;
static size_t nodes, sensor_count, actuators, message_bytes;

/* What each node has: its card, and its host's part. */
static struct {
    ragbasalt_card card;
    ragbasalt_bins bins;
    uint64_t place[RAGBASALT_MAX_ACTUATORS];     /* for the card's setpoints */
    uint64_t setpoints[RAGBASALT_MAX_ACTUATORS]; /* what it puts out */
    uint8_t message[RAGBASALT_MAX_MESSAGE_BYTES];
    int sends;     /* its message is to go over the bus */
    int heard_all; /* its bins were full */
    int bad;
} host[RAGBASALT_MAX_NODES];

/* What the plane last handed on for each actuator. */
static uint64_t handed[RAGBASALT_MAX_ACTUATORS];

/* How many votes were held with a bin still empty. */
static size_t lacking;

static void stop(const char *what, unsigned number, uint64_t line)
{
    fprintf(stderr, "card: %s: refused with %u, line %" PRIu64 "\n", what, number, line);
    exit(EXIT_FAILURE);
}

/* Every answer of the library goes through here. */
static void done(const char *call, ragbasalt_answer answer)
{
    if (answer != RAGBASALT_DONE)
        stop(call, ragbasalt_number_of(answer), ragbasalt_line_of(answer));
}

/* A file to be read; one that can't be opened counts as empty. */
static FILE *opened(const char *name)
{
    FILE *file = fopen(name, "rb");
    if (file == NULL)
        fprintf(stderr, "card: %s can't be opened, and counts as empty\n", name);
    return file;
}

/* The bytes of a file, at most `room` of them. */
static size_t contents(const char *name, uint8_t *bytes, size_t room)
{
    FILE *file = opened(name);
    size_t count;
    if (file == NULL)
        return 0;
    count = fread(bytes, 1, room, file);
    fclose(file);
    return count;
}

/* The number of a column: blanks, then digits without leading zeros. */
static int column(const char *text, size_t width, uint64_t *value)
{
    size_t at = 0, first;
    while (at < width && text[at] == ' ')
        at++;
    first = at;
    *value = 0;
    for (; at < width; at++) {
        unsigned digit = (unsigned)(unsigned char)text[at] - '0';
        if (digit > 9 || *value > (UINT64_MAX - digit) / 10)
            return 0;
        *value = 10 * *value + digit;
    }
    return first < width && (text[first] != '0' || first + 1 == width);
}

/* The next run line: mask, fill and the sensors. 0 at the end of the file. */
static int run_line(FILE *run, uint64_t frame, uint64_t *mask, uint64_t *fill, uint64_t *sensors)
{
    char line[8 + 20 * RAGBASALT_MAX_SENSORS + 1];
    size_t length = 8 + 20 * sensor_count + 1, s, got = fread(line, 1, length, run);
    int right = got == length && column(line, 4, mask) && column(line + 4, 4, fill);
    if (got == 0)
        return 0;
    for (s = 0; right && s < sensor_count; s++)
        right = column(line + 8 + 20 * s, 20, &sensors[s]);
    if (!right || line[length - 1] != '\n' || *mask >> nodes != 0 || *fill > 255 || frame >= 100000)
        stop("run.txt", RAGBASALT_REFUSED_RUN_LINE, frame + 1);
    return 1;
}

static uint8_t read_page(size_t i, uint64_t at)
{
    uint8_t value;
    done("read", ragbasalt_card_read(&plan, &host[i].card, at, &value));
    return value;
}

static void write_page(size_t i, uint64_t at, uint8_t value)
{
    done("write", ragbasalt_card_write(&plan, &host[i].card, at, value));
}

/* Both flags raise the line. */
static void mask_in(size_t i)
{
    write_page(i, RAGBASALT_PAGE_MASK, RAGBASALT_FLAG_TIMER | RAGBASALT_FLAG_FULL);
}

/* Power-on of all cards, and of the plane: "at power-on that is the actuator's cell's initial pattern". */
static void power_on(void)
{
    size_t i, a;
    for (i = 0; i < nodes; i++) {
        done("power_on", ragbasalt_card_power_on(&plan, &host[i].card, &host[i].bins));
        mask_in(i);
    }
    for (a = 0; a < actuators; a++)
        handed[a] = plan.initial[plan.actuator_cells[a]];
}

/* A bad node: what it sends to everybody, what it puts out and the words and bins of its card after the frame are bytes `fill`. Zero bytes are not sent: "A bin still empty
 * counts as not sent", and that as zero bytes. */
static void spoil(size_t i, uint64_t fill)
{
    memset(host[i].message, (int)fill, message_bytes);
    memset(host[i].setpoints, (int)fill, sizeof host[i].setpoints);
    memset(&host[i].card, (int)fill, sizeof host[i].card);
    memset(&host[i].bins, (int)fill, sizeof host[i].bins);
    host[i].sends = fill != 0;
    host[i].bad = 1;
}

/* A node that was bad begins again with the others: compute, no flag, all bins empty. The memory stays as the fault left it, and the votes put it right. Ticks would bring the
 * phase round too, but compute and vote on that memory on the way. */
static void restart(size_t i)
{
    host[i].card.phase = RAGBASALT_PHASE_COMPUTE;
    host[i].card.flags = 0;
    memset(&host[i].bins, 0, sizeof host[i].bins);
    mask_in(i);
    host[i].bad = 0;
}

/* What a host does where its card raises the line. It counts no phases: the page says what is due. */
static void interrupt(size_t i)
{
    uint8_t flags = read_page(i, RAGBASALT_PAGE_FLAGS);
    if (!(flags & RAGBASALT_FLAG_LINE))
        return;
    /* First of all, so that a flag that is set from now on raises the line again. */
    write_page(i, RAGBASALT_PAGE_CLEAR, flags);
    if (flags & RAGBASALT_FLAG_FULL)
        host[i].heard_all = 1;
    if (!(flags & RAGBASALT_FLAG_TIMER))
        return;
    switch (read_page(i, RAGBASALT_PAGE_PHASE)) {
    case RAGBASALT_PHASE_COMPUTE:
        memcpy(host[i].setpoints, host[i].place, sizeof host[i].setpoints);
        break;
    case RAGBASALT_PHASE_BROADCAST:
        done("message", ragbasalt_node_message(&plan, &host[i].card.memory, host[i].message, message_bytes));
        host[i].sends = 1;
        host[i].heard_all = 0;
        break;
    case RAGBASALT_PHASE_VOTE:
        lacking += !host[i].heard_all;
        break;
    default: /* sync: the next tick gives the setpoints */
        break;
    }
}

/* A tick of the frame timer, which all good nodes have in common. */
static void timer(const uint64_t *sensors)
{
    size_t i;
    for (i = 0; i < nodes; i++)
        if (!host[i].bad) {
            done("tick", ragbasalt_card_tick(&plan, &host[i].card, &host[i].bins, sensors, sensor_count, host[i].place, actuators));
            interrupt(i);
        }
}

static void deliver(size_t to, size_t from, const uint8_t *message)
{
    done("deliver", ragbasalt_card_deliver(&plan, &host[to].card, &host[to].bins, from, message, message_bytes));
    interrupt(to);
}

/* The bus: what was sent, to every good node, the sender too, in an order that differs by receiver and frame. In every second frame a receiver's line is noisy, and each message
 * comes damaged and then again: "A bin delivered again replaces the first". */
static void bus(uint64_t frame)
{
    uint8_t damaged[RAGBASALT_MAX_MESSAGE_BYTES];
    size_t to, from, turn, step, b;
    for (to = 0; to < nodes; to++) {
        if (host[to].bad)
            continue;
        step = to % 2 ? nodes - 1 : 1;
        for (turn = 0; turn < nodes; turn++) {
            from = ((size_t)frame + to + turn * step) % nodes;
            if (!host[from].sends)
                continue;
            if ((frame + to) % 2) {
                for (b = 0; b < message_bytes; b++)
                    damaged[b] = (uint8_t)~host[from].message[b];
                deliver(to, from, damaged);
            }
            deliver(to, from, host[from].message);
        }
    }
    for (from = 0; from < nodes; from++)
        host[from].sends = 0;
}

/* The plane, no part of the library: the setpoint that most nodes put out. "Of tied values the remembered one wins; if it isn't among them", the one whose lowest holder is lowest. */
static uint64_t plane(size_t a)
{
    uint64_t value = 0;
    size_t most = 0, i, j;
    for (i = 0; i < nodes; i++) {
        size_t holders = 0;
        for (j = 0; j < nodes; j++)
            holders += host[j].setpoints[a] == host[i].setpoints[a];
        if (holders > most || (holders == most && host[i].setpoints[a] == handed[a])) {
            most = holders;
            value = host[i].setpoints[a];
        }
    }
    handed[a] = value;
    return value;
}

int main(void)
{
    static uint8_t text[RAGBASALT_MAX_TEXT_BYTES + 1];
    uint64_t frame, mask, fill, sensors[RAGBASALT_MAX_SENSORS];
    size_t i, a, tick;
    FILE *run;

    if (!ragbasalt_arithmetic_holds()) {
        fputs("card: this thread's arithmetic is not IEEE 754's: its rounding, a flush of subnormal values to zero (as cc -Ofast sets it), or an exception that is not masked\n", stderr);
        return 2;
    }
    done("plan.txt", ragbasalt_plan_read(text, contents("plan.txt", text, sizeof text), &plan));
    nodes = (size_t)plan.nodes;
    sensor_count = (size_t)plan.sensors;
    actuators = (size_t)plan.actuators;
    message_bytes = ragbasalt_message_size(&plan);
    power_on();

    run = opened("run.txt");
    for (frame = 0; run != NULL && run_line(run, frame, &mask, &fill, sensors); frame++) {
        for (i = 0; i < nodes; i++)
            if (mask >> i & 1)
                spoil(i, fill);
            else if (host[i].bad)
                restart(i);
        for (tick = 0; tick < 4; tick++) {
            timer(sensors);
            bus(frame);
        }
        printf("%8" PRIu64, frame);
        for (a = 0; a < actuators; a++)
            printf("%20" PRIu64, plane(a));
        printf("\n");
    }
    if (lacking > 0)
        fprintf(stderr, "card: votes that lacked a message: %zu\n", lacking);
    return EXIT_SUCCESS;
}
