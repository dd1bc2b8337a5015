/* What Intel HEX costs: nanoseconds for each KiB of text, written and read, beside plain C of the same work.
 *
 *     tools/staticlib.sh hex
 *     gcc -O2 -Iinclude bench/hex.c target/staticlib/libhex.a -o target/hex-bench && target/hex-bench
 *
 * Plain C does what the library does and no more is asked of it than an honest
 * loop: the whole text is judged before the output is touched. The least of many
 * rounds of processor time, the two in turn. */
#define _POSIX_C_SOURCE 199309L
#include "json_patch_hex.h"

#include <stdio.h>
#include <string.h>
#include <time.h>

#define ROUNDS 200

static uint8_t text[65536], hex[262144], output[262144];

static uint8_t *put(uint8_t *out, unsigned b)
{
    static const char digits[] = "0123456789ABCDEF";
    out[0] = digits[b >> 4];
    out[1] = digits[b & 15];
    return out + 2;
}

static uint8_t *line(uint8_t *out, unsigned type, unsigned address, const uint8_t *bytes, unsigned n)
{
    unsigned sum = n + (address >> 8) + (address & 255) + type;
    *out++ = ':';
    out = put(out, n);
    out = put(out, address >> 8);
    out = put(out, address & 255);
    out = put(out, type);
    for (unsigned i = 0; i < n; i++) {
        sum += bytes[i];
        out = put(out, bytes[i]);
    }
    out = put(out, -sum & 255);
    *out++ = '\n';
    return out;
}

static uint32_t plain_write(const uint8_t *s, size_t n, uint8_t *out, size_t room, json_patch_hex_answer *a)
{
    memset(a, 0, sizeof *a);
    if (n > 65536)
        return a->number = 2;
    if (JSON_PATCH_HEX_LENGTH(n) > room)
        return a->number = 16;
    uint8_t *at = out;
    for (size_t i = 0; i < n; i += 16)
        at = line(at, 0, (unsigned)i, s + i, (unsigned)(n - i < 16 ? n - i : 16));
    a->length = (size_t)(line(at, 1, 0, s, 0) - out);
    return 0;
}

static unsigned value(uint8_t b)
{
    if (b >= '0' && b <= '9')
        return b - '0';
    if (b >= 'A' && b <= 'F')
        return b - 'A' + 10;
    if (b >= 'a' && b <= 'f')
        return b - 'a' + 10;
    return 16;
}

static unsigned byte(const uint8_t *s)
{
    return value(s[0]) * 16 + value(s[1]);
}

/* The length of the line at s, of n bytes that are left, or 0. */
static size_t line_length(const uint8_t *s, size_t n, unsigned *sum)
{
    if (n < 11 || s[0] != ':')
        return 0;
    size_t end = 2 * byte(s + 1) + 11;
    if (n < end)
        return 0;
    *sum = 0;
    for (size_t i = 1; i < end; i += 2) {
        unsigned high = value(s[i]), low = value(s[i + 1]);
        if (high > 15 || low > 15)
            return 0;
        *sum += high * 16 + low;
    }
    if (end == n)
        return end;
    if (s[end] == '\n')
        return end + 1;
    return n - end > 1 && s[end] == '\r' && s[end + 1] == '\n' ? end + 2 : 0;
}

static uint32_t plain_read(const uint8_t *s, size_t n, uint8_t *out, size_t room, json_patch_hex_answer *a)
{
    size_t next = 0, at = 0, width;
    unsigned sum;
    memset(a, 0, sizeof *a);
    for (a->place = 1;; a->place++) {
        if (at == n)
            return a->number = 21;
        width = line_length(s + at, n - at, &sum);
        if (width == 0)
            return a->number = 18;
        unsigned count = byte(s + at + 1), address = byte(s + at + 3) * 256 + byte(s + at + 5), type = byte(s + at + 7);
        if (type == 0 ? count == 0 : type != 1 || count != 0 || address != 0)
            return a->number = 18;
        if (sum & 255)
            return a->number = 19;
        at += width;
        if (type == 1)
            break;
        if (address != next || next + count > 65536)
            return a->number = 20;
        next += count;
    }
    if (at != n) {
        a->place++;
        return a->number = 21;
    }
    a->place = 0;
    if (next > room)
        return a->number = 16;
    for (at = 0, next = 0;; at += width) {
        unsigned count = byte(s + at + 1);
        if (count == 0)
            break;
        for (unsigned i = 0; i < count; i++)
            out[next++] = (uint8_t)byte(s + at + 9 + 2 * i);
        width = 2 * count + 11;
        while (s[at + width] != ':')
            width++;
    }
    a->length = next;
    return 0;
}

static double now(void)
{
    struct timespec t;
    clock_gettime(CLOCK_PROCESS_CPUTIME_ID, &t);
    return t.tv_sec * 1e9 + t.tv_nsec;
}

typedef uint32_t call(const uint8_t *, size_t, uint8_t *, size_t, json_patch_hex_answer *);

static double once(call *f, const uint8_t *in, size_t n, int calls, size_t *length)
{
    json_patch_hex_answer answer;
    double start = now();
    for (int i = 0; i < calls; i++) {
        if (f(in, n, output, sizeof output, &answer) != 0)
            return 1e18;
    }
    *length = answer.length;
    return (now() - start) / calls;
}

static void measure(size_t n)
{
    double best[4] = {1e18, 1e18, 1e18, 1e18};
    size_t made = 0, back = 0;
    int calls = (int)(65536 / n) + 1;
    for (int round = 0; round < ROUNDS; round++) {
        call *calls_of[4] = {json_patch_write_hex, plain_write, json_patch_read_hex, plain_read};
        for (int k = 0; k < 4; k++) {
            double took = k < 2 ? once(calls_of[k], text, n, calls, &made) : once(calls_of[k], hex, made, calls, &back);
            if (took < best[k])
                best[k] = took;
            if (k == 1)
                memcpy(hex, output, made);
        }
    }
    if (back != n || memcmp(output, text, n) != 0)
        printf("not read back\n");
    printf("%6zu bytes: written %6.0f, plain C %6.0f (%.2f); read %6.0f, plain C %6.0f (%.2f) ns/KiB\n", n,
           best[0] * 1024 / n, best[1] * 1024 / n, best[0] / best[1], best[2] * 1024 / n, best[3] * 1024 / n, best[2] / best[3]);
}

int main(void)
{
    unsigned seed = 7;
    for (size_t i = 0; i < sizeof text; i++) {
        seed = seed * 1103515245 + 12345;
        text[i] = (uint8_t)(seed >> 16);
    }
    measure(100);
    measure(1024);
    measure(32768);
    measure(65536);
    return 0;
}
