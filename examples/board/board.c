/* A controller board in C: the n nodes of a plan in one process, each with its own memory, exchanging messages through mailboxes.
 *
 * It reads plan.txt and run.txt in the current folder, as the program `run` does, and prints per frame the frame number (width 8), the setpoints that the
 * plane hands on (20 each) and the least agreement of the good nodes (4): the listing without its counts of working and equal nodes, which no single board can
 * know. The plane is the loop `plane` below, with `handed`, which it remembers; on a press it stands before the drives. A refusal goes to the error output, with exit status 1;
 * where the arithmetic is not the one that the library needs, nothing is computed, and the status is 2. */
#include <inttypes.h>
#include <stdio.h>
#include <stdlib.h>
#include <string.h>

#include "ragbasalt.h"

static ragbasalt_plan plan;
static size_t nodes, cells, sensor_count, actuators, message_bytes;

/* What each node has on its board. */
static struct {
    ragbasalt_memory memory;
    uint8_t message[RAGBASALT_MAX_MESSAGE_BYTES];
    uint8_t mailbox[RAGBASALT_MAX_MAILBOX_BYTES];
    uint64_t setpoints[RAGBASALT_MAX_ACTUATORS];
    size_t agreement;
} board[RAGBASALT_MAX_NODES];

/* What the plane last handed on for each actuator. */
static uint64_t handed[RAGBASALT_MAX_ACTUATORS];

static void stop(const char *what, unsigned number, uint64_t line)
{
    fprintf(stderr, "board: %s: refused with %u, line %" PRIu64 "\n", what, number, line);
    exit(EXIT_FAILURE);
}

/* Every call of the library goes through here. */
static void done(const char *call, ragbasalt_answer answer)
{
    if (answer != RAGBASALT_DONE)
        stop(call, ragbasalt_number_of(answer), ragbasalt_line_of(answer));
}

/* A file to be read; one that can't be opened counts as empty. */
static FILE *opened(const char *name)
{
    FILE *file = fopen(name, "rb");
    if (file == NULL)
        fprintf(stderr, "board: %s can't be opened, and counts as empty\n", name);
    return file;
}

/* The bytes of a file, at most `room` of them. */
static size_t contents(const char *name, uint8_t *bytes, size_t room)
{
    FILE *file = opened(name);
    size_t count;
    if (file == NULL)
        return 0;
    count = fread(bytes, 1, room, file);
    fclose(file);
    return count;
}

/* The number of a column: blanks, then digits without leading zeros. */
static int column(const char *text, size_t width, uint64_t *value)
{
    size_t at = 0, first;
    while (at < width && text[at] == ' ')
        at++;
    first = at;
    *value = 0;
    for (; at < width; at++) {
        unsigned digit = (unsigned)(unsigned char)text[at] - '0';
        if (digit > 9 || *value > (UINT64_MAX - digit) / 10)
            return 0;
        *value = 10 * *value + digit;
    }
    return first < width && (text[first] != '0' || first + 1 == width);
}

/* The next run line: mask, fill and the sensors. 0 at the end of the file. */
static int run_line(FILE *run, uint64_t frame, uint64_t *mask, uint64_t *fill, uint64_t *sensors)
{
    char line[8 + 20 * RAGBASALT_MAX_SENSORS + 1];
    size_t length = 8 + 20 * sensor_count + 1, s, got = fread(line, 1, length, run);
    int right = got == length && column(line, 4, mask) && column(line + 4, 4, fill);
    if (got == 0)
        return 0;
    for (s = 0; right && s < sensor_count; s++)
        right = column(line + 8 + 20 * s, 20, &sensors[s]);
    if (!right || line[length - 1] != '\n' || *mask >> nodes != 0 || *fill > 255 || frame >= 100000)
        stop("run.txt", RAGBASALT_REFUSED_RUN_LINE, frame + 1);
    return 1;
}

/* Power-on of all nodes, and of the plane: "at power-on that is the actuator's cell's initial pattern". */
static void power_on(void)
{
    size_t i, a;
    for (i = 0; i < nodes; i++)
        done("power_on", ragbasalt_node_power_on(&plan, &board[i].memory));
    for (a = 0; a < actuators; a++)
        handed[a] = plan.initial[plan.actuator_cells[a]];
}

/* A frame of a good node up to its broadcast. */
static void compute(size_t i, const uint64_t *sensors)
{
    done("compute", ragbasalt_node_compute(&plan, &board[i].memory, sensors, sensor_count));
    done("message", ragbasalt_node_message(&plan, &board[i].memory, board[i].message, message_bytes));
}

/* What a good node does with its mailbox. */
static void close_frame(size_t i)
{
    done("vote", ragbasalt_node_vote(&plan, &board[i].memory, board[i].mailbox, nodes * message_bytes, &board[i].agreement));
    done("setpoints", ragbasalt_node_setpoints(&plan, &board[i].memory, board[i].setpoints, actuators));
}

/* A bad node: its message to everybody, its setpoints, and its memory after the frame are bytes `fill`. */
static void spoil(size_t i, uint64_t fill)
{
    uint64_t pattern = fill * UINT64_C(0x0101010101010101);
    size_t c, a;
    memset(board[i].message, (int)fill, message_bytes);
    board[i].memory.counter = pattern & 65535;
    for (c = 0; c < cells; c++)
        board[i].memory.cells[c] = pattern;
    for (a = 0; a < actuators; a++)
        board[i].setpoints[a] = pattern;
}

/* The bus: every node's message in the bin of its sender in every mailbox. */
static void exchange(void)
{
    size_t from, to;
    for (from = 0; from < nodes; from++)
        for (to = 0; to < nodes; to++)
            memcpy(board[to].mailbox + from * message_bytes, board[from].message, message_bytes);
}

/* The plane, no part of the library: the setpoint that most nodes put out. "Of tied values the remembered one wins; if it isn't among them", the one whose lowest holder is lowest. */
static uint64_t plane(size_t a)
{
    uint64_t value = 0;
    size_t most = 0, i, j;
    for (i = 0; i < nodes; i++) {
        size_t holders = 0;
        for (j = 0; j < nodes; j++)
            holders += board[j].setpoints[a] == board[i].setpoints[a];
        if (holders > most || (holders == most && board[i].setpoints[a] == handed[a])) {
            most = holders;
            value = board[i].setpoints[a];
        }
    }
    handed[a] = value;
    return value;
}

/* The least agreement of the good nodes, 0 if all are bad. */
static size_t agreement(uint64_t mask)
{
    size_t least = 0, good = 0, i;
    for (i = 0; i < nodes; i++)
        if (!(mask >> i & 1) && (good++ == 0 || board[i].agreement < least))
            least = board[i].agreement;
    return least;
}

int main(void)
{
    static uint8_t text[RAGBASALT_MAX_TEXT_BYTES + 1];
    uint64_t frame, mask, fill, sensors[RAGBASALT_MAX_SENSORS];
    size_t i, a;
    FILE *run;

    if (!ragbasalt_arithmetic_holds()) {
        fputs("board: this thread's arithmetic is not IEEE 754's: its rounding, a flush of subnormal values to zero (as cc -Ofast sets it), or an exception that is not masked\n", stderr);
        return 2;
    }
    done("plan.txt", ragbasalt_plan_read(text, contents("plan.txt", text, sizeof text), &plan));
    nodes = (size_t)plan.nodes;
    cells = (size_t)plan.cells;
    sensor_count = (size_t)plan.sensors;
    actuators = (size_t)plan.actuators;
    message_bytes = ragbasalt_message_size(&plan);
    power_on();

    run = opened("run.txt");
    for (frame = 0; run != NULL && run_line(run, frame, &mask, &fill, sensors); frame++) {
        for (i = 0; i < nodes; i++)
            if (mask >> i & 1)
                spoil(i, fill);
            else
                compute(i, sensors);
        exchange();
        for (i = 0; i < nodes; i++)
            if (!(mask >> i & 1))
                close_frame(i);
        printf("%8" PRIu64, frame);
        for (a = 0; a < actuators; a++)
            printf("%20" PRIu64, plane(a));
        printf("%4zu\n", agreement(mask));
    }
    return EXIT_SUCCESS;
}
