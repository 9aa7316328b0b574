/*
 * The desk program of document 01 over plain.h: lines from standard input, answers to standard
 * output. What is waiting to be written goes out before each read, so that a person at a terminal
 * sees every answer at once. With `old` as its first argument the tables are of the old kind.
 */
#include "plain.h"

#include <stdbool.h>
#include <string.h>
#include <unistd.h>

enum { LONGEST_LINE = 280, LONGEST_PACKET = LONGEST_LINE / 2, MOST_STEPS = 65535 };

static uint32_t kind = PLAIN_NEW;
static uint8_t state[PLAIN_STATE];
static uint8_t sequences[PLAIN_SEQUENCES];
static uint8_t line_lists[PLAIN_LINE_LISTS];
static uint8_t answer[PLAIN_OUTPUT];

/* ---- Writing ---- */

static char waiting[65536];
static size_t waiting_len;

static void flush(void)
{
    for (size_t done = 0; done < waiting_len;) {
        ssize_t n = write(1, waiting + done, waiting_len - done);
        if (n <= 0)
            _exit(1);
        done += (size_t)n;
    }
    waiting_len = 0;
}

/* Room for n more characters, written at what this returns and then counted by wrote(). */
static char *room(size_t n)
{
    if (sizeof waiting - waiting_len < n)
        flush();
    return waiting + waiting_len;
}

static void wrote(const char *end)
{
    waiting_len = (size_t)(end - waiting);
}

static char *text(char *to, const char *s)
{
    size_t n = strlen(s);
    memcpy(to, s, n);
    return to + n;
}

static char *hex(char *to, const uint8_t *bytes, size_t n)
{
    static const char digits[] = "0123456789ABCDEF";
    for (size_t i = 0; i < n; i++) {
        *to++ = digits[bytes[i] >> 4];
        *to++ = digits[bytes[i] & 15];
    }
    return to;
}

/* A blank and a number in decimal. */
static char *number(char *to, unsigned value)
{
    char digits[10];
    unsigned n = 0;
    do {
        digits[n++] = (char)('0' + value % 10);
        value /= 10;
    } while (value > 0);
    *to++ = ' ';
    while (n > 0)
        *to++ = digits[--n];
    return to;
}

/* ---- Packets and steps ---- */

static void send_packet(const uint8_t *packet, size_t n)
{
    uint8_t bc1 = n > 0 ? packet[0] : 0;
    uint32_t result = plain_packet(kind, state, sizeof state, sequences, sizeof sequences, line_lists,
                                   sizeof line_lists, answer, sizeof answer, 0, packet, n);
    uint32_t length = result >> 8;
    char *to = room(32 + 2 * (size_t)length);

    to = text(to, "TC ");
    to = hex(to, &bc1, 1);
    to = number(to, result & 0xFF);
    *to++ = '\n';
    if (length > 0) {
        to = text(to, bc1 == 0x01 ? "ST " : "DU ");
        to = hex(to, answer, length);
        *to++ = '\n';
    }
    wrote(to);
}

static void take_steps(unsigned n)
{
    static const struct {
        const char *word;
        unsigned values;
    } shown[] = {
        [PLAIN_IDLE] = {"IDLE", 0}, [PLAIN_ENTER] = {"ENTER", 1}, [PLAIN_RASTER] = {"RASTER", 2},
        [PLAIN_EXP] = {"EXP", 2},   [PLAIN_LOOP] = {"LOOP", 1},   [PLAIN_NEXT] = {"NEXT", 0},
        [PLAIN_DONE] = {"DONE", 0}, [PLAIN_WAIT] = {"WAIT", 1},   [PLAIN_CALL] = {"CALL", 1},
        [PLAIN_END] = {"END", 0},   [PLAIN_ABORT] = {"ABORT", 3},
    };

    while (n-- > 0) {
        uint64_t event =
            plain_step(kind, state, sizeof state, sequences, sizeof sequences, line_lists, sizeof line_lists);
        unsigned what = event & 0xFF;
        char *to = text(room(32), shown[what].word);
        for (unsigned i = 0; i < shown[what].values; i++) {
            event >>= 16;
            to = number(to, event & 0xFFFF);
        }
        *to++ = '\n';
        wrote(to);
    }
}

/* ---- Lines ---- */

static int digit(uint8_t c)
{
    if (c >= '0' && c <= '9')
        return c - '0';
    if (c >= 'A' && c <= 'F')
        return c - 'A' + 10;
    if (c >= 'a' && c <= 'f')
        return c - 'a' + 10;
    return -1;
}

/* The n of `STEP n`, or 0 if the line is none. */
static unsigned steps_of(const uint8_t *line, size_t n)
{
    unsigned value = 0;
    if (n < 6 || n > 10 || memcmp(line, "STEP ", 5) != 0 || line[5] == '0')
        return 0;
    for (size_t i = 5; i < n; i++) {
        if (line[i] < '0' || line[i] > '9')
            return 0;
        value = 10 * value + (line[i] - '0');
    }
    return value <= MOST_STEPS ? value : 0;
}

/* Reads hex digits into a packet; false if the line is anything else. */
static bool packet_of(const uint8_t *line, size_t n, uint8_t *packet)
{
    if (n % 2 != 0)
        return false;
    for (size_t i = 0; i < n; i += 2) {
        int high = digit(line[i]), low = digit(line[i + 1]);
        if (high < 0 || low < 0)
            return false;
        packet[i / 2] = (uint8_t)(high << 4 | low);
    }
    return true;
}

static void obey_line(const uint8_t *line, size_t n)
{
    uint8_t packet[LONGEST_PACKET];
    unsigned steps = steps_of(line, n);
    if (steps > 0)
        take_steps(steps);
    else if (n <= LONGEST_LINE && packet_of(line, n, packet))
        send_packet(packet, n / 2);
    else
        wrote(text(room(4), "BAD\n"));
}

int main(int argc, char **argv)
{
    static uint8_t input[65536];
    uint8_t line[LONGEST_LINE + 1]; /* a line longer than any good one keeps this many bytes */
    size_t line_len = 0;
    bool begun = false; /* a line has begun and not ended */

    if (argc > 1 && strcmp(argv[1], "old") == 0)
        kind = PLAIN_OLD;
    plain_power_on(state, sizeof state);
    for (;;) {
        ssize_t got;
        const uint8_t *at, *end;

        flush();
        got = read(0, input, sizeof input);
        if (got <= 0)
            break;
        at = input;
        end = input + got;
        while (at < end) {
            const uint8_t *newline = memchr(at, '\n', (size_t)(end - at));
            size_t part = (size_t)((newline ? newline : end) - at);
            size_t space = sizeof line - line_len;

            if (newline != NULL && !begun) {
                obey_line(at, part);
            } else {
                size_t kept = part < space ? part : space;
                memcpy(line + line_len, at, kept);
                line_len += kept;
                begun = newline == NULL;
                if (!begun) {
                    obey_line(line, line_len);
                    line_len = 0;
                }
            }
            at += part + (newline != NULL);
        }
    }
    if (begun)
        obey_line(line, line_len);
    flush();
    return 0;
}
