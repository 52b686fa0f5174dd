/* Stands in for the service in a trial of the tests: its reads and writes, and answers that are right for the fields of P2, for names and
   for refused headers alone. WRONG names one error that it then has; "nothing" makes it right. */
#include <errno.h>
#include <signal.h>
#include <stdio.h>
#include <stdlib.h>
#include <string.h>
#include <unistd.h>

#define IS(name) (!strcmp(WRONG, name))
enum { ROOM = 65536, SHORT = 100, LONGEST = 4000 };
typedef unsigned char byte;

static const byte look[] = {0x86, 0, 0x22, 0, 0, 0, 0, 0, 3, 0xD0, 0x90, 5, 0, 0, 0, 0x0B, 0, 0, 0, 0,
                            0xFF, 0xFF, 0xFF, 0xFF, 0xFF, 0xFE, 0x52, 0x50, 7, 0, 0, 0, 5, 0, 0, 0, 0};
static byte in[ROOM], out[16 * ROOM];
static size_t held, made, answered_early; /* bytes in, bytes out, bytes of a field that was answered before they came */

/* Writes all of a text to standard error, where that can be done. */
static void say(const char *text) {
    for (size_t left = strlen(text); left;) {
        ssize_t n = write(2, text, left);
        if (n < 0 && errno != EINTR && errno != EAGAIN) return;
        if (n < 0) usleep(SHORT);
        else text += n, left -= (size_t)n;
    }
}

static void fail(const char *call) {
    char text[200];
    int error = errno;
    if (IS("silent failures")) exit(0);
    if (IS("the other call named")) call = *call == 'r' ? "write" : "read";
    if (IS("error number for text")) sprintf(text, "frames: %s: %d\n", call, error);
    else sprintf(text, "frames: %s: %s\n", call, strerror(error));
    say(text);
    if (IS("two lines")) say("frames ends\n");
    exit(IS("status 1"));
}

static void pause_for(long *us) {
    if (IS("spins")) return;
    usleep((useconds_t)*us);
    if (*us < LONGEST || IS("sleeps without bound")) *us *= 2;
}

/* What an errno of a write means: 1 to try again. */
static int write_again(long *us) {
    if (errno == EINTR) {
        if (IS("interrupted write ends")) exit(0);
        return 1;
    }
    if (errno != EAGAIN) return 0;
    if (IS("blocked write ends")) exit(0);
    if (IS("blocked write fails")) return 0;
    pause_for(us);
    return 1;
}

static void put(void) {
    long us = SHORT;
    for (size_t at = 0; at < made;) {
        ssize_t n = write(1, out + at, made - at);
        if (n >= 0) {
            if ((size_t)n < made - at && IS("short write doubles")) n = n > 3 ? n - 1 : n;
            if ((size_t)n < made - at && IS("short write drops the rest")) n = (ssize_t)(made - at);
            at += (size_t)n;
            us = SHORT;
        } else if (!write_again(&us)) {
            if (IS("goes on after a failed write")) {
                say("frames: write: No space left on device\n");
                break;
            }
            fail("write");
        } else if (IS("blocked write skips a byte") && errno != EINTR && at + 1 < made) at++;
    }
    made = 0;
}

static void add(const void *b, size_t n) {
    memcpy(out + made, b, n);
    made += n;
}

static void refuse(byte number) {
    add((byte[]){0x81, 0, 1, number}, 4);
}

/* The end of the run: the answers, a 3 where a field is cut. */
static void finish(int cut) {
    if (cut && !IS("no 3 at the end")) refuse(3);
    put();
    if (cut && IS("a line at a cut field")) say("frames: read: cut\n");
    if (IS("waits after a 3")) while (read(0, in, ROOM) > 0) {}
    exit(IS("status 1") && cut);
}

static void answer(const byte *b, size_t length) {
    static const byte lengths[] = {0, 3, 2, 8, 1, 7, 2, 1, 1, 2};
    if (b[0] == 0x60 && !IS("names unknown")) {
        if (length < 2 || length > 25) refuse(2);
        else if (b[3] > 31) refuse(5);
        else add("\x80\0", 3);
    } else if (b[0] < 1 || b[0] > 9) refuse(1);
    else if (length != lengths[b[0]]) refuse(2);
    else if (b[0] == 6) add(look, sizeof look);
    else add("\x80\0", 3);
}

static void answer_whole_fields(void) {
    size_t at = 0;
    while (held - at >= 3) {
        size_t length = (size_t)in[at + 1] << 8 | in[at + 2];
        if (length > 60000) finish(1);
        answered_early = IS("answers early") && length && held - at == 2 + length;
        if (held - at < 3 + length - answered_early) break;
        answer(in + at, length);
        at += 3 + length - answered_early;
    }
    memmove(in, in + at, held - at);
    held -= at;
}

/* The bytes read, or 0 at the end of input. */
static size_t get(void) {
    for (long us = SHORT;;) {
        ssize_t n = read(0, in + held, ROOM - held);
        if (n >= 0) return (size_t)n;
        if (errno == EINTR && IS("interrupted read ends")) return 0;
        if (errno == EINTR) continue;
        if (errno == EAGAIN && IS("blocked read is the end")) return 0;
        if (errno == EAGAIN && !IS("blocked read fails")) {
            pause_for(&us);
            continue;
        }
        if (IS("failed read is the end")) return 0;
        if (IS("failed read adds a 3") && held) refuse(3);
        if (IS("the line comes first")) say("frames: read: Input/output error\n");
        if (!IS("failed read loses answers")) put();
        if (IS("the line comes first")) exit(0);
        fail("read");
    }
}

int main(void) {
    if (!IS("ends by SIGPIPE")) signal(SIGPIPE, SIG_IGN);
    int late = IS("failed read loses answers") || IS("answers at the end") || IS("the line comes first");
    size_t n;
    while ((n = get())) {
        held += n - answered_early;
        memmove(in, in + answered_early, held);
        answered_early = 0;
        answer_whole_fields();
        if (!late || made > ROOM) put();
    }
    finish(held != 0);
}
