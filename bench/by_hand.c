// What aioloops does with an image script, written by hand in C: the yardstick of bench/first_path and bench/read_script.
// It reads the script from standard input, looks at every line as the proved reader does, serves the requests on an
// image in memory, and prints the replies in pieces of 64 KiB. It tells no reason where it refuses a script.
#include <stdint.h>
#include <stdio.h>
#include <stdlib.h>
#include <string.h>
#include <unistd.h>

enum { LONGEST = 1048576, MOST = 4096, PAGE = 65536, STREAMS = 64 };

typedef struct {
    const unsigned char *at;
    size_t len;
} Word;

typedef enum { READ, WRITE, ZERO, FLUSH } Verb;

typedef struct {
    Verb verb;
    uint32_t stream;
    uint64_t at;
    uint32_t len;
    unsigned char *bytes; // what is to be written, or what was read
    int refused;
} Request;

static unsigned char text[LONGEST + 1], page[PAGE];
static size_t used;
static signed char digit_of[256];
static Request requests[MOST];
static uint32_t count, pauses;
static uint64_t moved, size, loops;
static unsigned char declared[STREAMS], *image;

static void refuse(const char *why) {
    fprintf(stderr, "by_hand: %s\n", why);
    exit(3);
}

static void *memory(size_t n) {
    void *p = malloc(n ? n : 1);
    if (!p) refuse("memory");
    return p;
}

// ---- reading

static uint64_t number(Word w) {
    unsigned __int128 n = 0;
    if (w.len < 1 || w.len > 20) refuse("number");
    for (size_t i = 0; i < w.len; i++) {
        unsigned d = w.at[i] - '0';
        if (d > 9) refuse("number");
        n = n * 10 + d;
    }
    if (n > UINT64_MAX) refuse("number");
    return (uint64_t)n;
}

// The words of a line, at most five, with just one space between each two.
static int split(const unsigned char *at, const unsigned char *end, Word *words) {
    int n = 0;
    for (;;) {
        const unsigned char *from = at;
        while (at < end && *at > 32 && *at < 127) at++;
        if (at == from || n == 5) refuse("line");
        words[n++] = (Word){from, (size_t)(at - from)};
        if (at == end) return n;
        if (*at++ != ' ') refuse("line");
    }
}

static int is(Word w, const char *name) { return w.len == strlen(name) && !memcmp(w.at, name, w.len); }

static void decode(Word w, Request *r) {
    if (is(w, "-")) return;
    if (w.len < 2 || w.len % 2) refuse("data");
    r->len = (uint32_t)(w.len / 2);
    r->bytes = memory(r->len);
    for (uint32_t i = 0; i < r->len; i++) {
        int high = digit_of[w.at[2 * i]], low = digit_of[w.at[2 * i + 1]];
        if ((high | low) < 0) refuse("data");
        r->bytes[i] = (unsigned char)(high << 4 | low);
    }
}

static void limit(uint64_t len, uint64_t bytes) {
    if (len > 65536 || count >= MOST || moved + bytes > 67108864) refuse("limit");
    moved += bytes;
}

static void line(Word *w, int n) {
    if (is(w[0], "stream")) {
        if (n != 3) refuse("line");
        uint64_t id = number(w[1]), home = number(w[2]);
        if (id >= STREAMS || home >= loops || declared[id]) refuse("stream");
        declared[id] = 1;
        return;
    }
    if (n < 2) refuse("line");
    uint64_t stream = number(w[0]);
    Request r = {0};
    if (n == 3 && (is(w[1], "delay") || is(w[1], "move"))) {
        uint64_t most = is(w[1], "delay") ? 1000000000 : loops - 1;
        if (number(w[2]) > most || pauses++ >= MOST) refuse("limit");
        if (stream >= STREAMS || !declared[stream]) refuse("stream");
        return;
    }
    if (n == 2 && is(w[1], "flush")) {
        r.verb = FLUSH;
        limit(0, 0);
    } else if (n == 4 && is(w[1], "write")) {
        r.verb = WRITE;
        r.at = number(w[2]);
        decode(w[3], &r);
        limit(r.len, r.len);
    } else if (n == 4 && (is(w[1], "read") || is(w[1], "zero"))) {
        r.verb = is(w[1], "read") ? READ : ZERO;
        r.at = number(w[2]);
        uint64_t len = number(w[3]);
        limit(len, r.verb == READ ? len : 0);
        r.len = (uint32_t)len;
        if (r.verb == READ) r.bytes = memory(r.len);
    } else {
        refuse("line");
    }
    if (stream >= STREAMS || !declared[stream]) refuse("stream");
    r.stream = (uint32_t)stream;
    requests[count++] = r;
}

static void read_script(size_t len) {
    const unsigned char *at = text, *end = text + len;
    int header = 0;
    while (at < end) {
        const unsigned char *feed = memchr(at, '\n', (size_t)(end - at));
        const unsigned char *stop = feed ? feed : end;
        if (at < stop && *at != '#') {
            Word words[5];
            int n = split(at, stop, words);
            if (header < 2) {
                if (!is(words[0], header ? "loops" : "image") || n != 2) refuse("header");
                uint64_t value = number(words[1]);
                if (value > (header ? 16 : LONGEST) || (header && !value)) refuse("limit");
                if (header++) loops = value;
                else size = value;
            } else {
                line(words, n);
            }
        }
        at = feed ? feed + 1 : end;
    }
    if (header < 2) refuse("header");
}

// ---- serving, in pieces of 4,096 bytes

static void serve(Request *r) {
    if (r->verb == FLUSH) return;
    if (r->at > size || r->len > size - r->at) {
        r->refused = 1;
        return;
    }
    for (uint32_t done = 0; done < r->len;) {
        uint32_t n = r->len - done < 4096 ? r->len - done : 4096;
        unsigned char *place = image + r->at + done;
        if (r->verb == READ) memcpy(r->bytes + done, place, n);
        else if (r->verb == WRITE) memcpy(place, r->bytes + done, n);
        else memset(place, 0, n);
        done += n;
    }
}

// ---- printing

static void hand_over(void) {
    for (size_t done = 0; done < used;) {
        ssize_t n = write(1, page + done, used - done);
        if (n <= 0) refuse("output");
        done += (size_t)n;
    }
    used = 0;
}

static void put(const char *part, size_t len) {
    if (len > PAGE - used) hand_over();
    memcpy(page + used, part, len);
    used += len;
}

static void put_text(const char *part) { put(part, strlen(part)); }

static void put_number(uint64_t n) {
    char digits[20];
    size_t at = 20;
    do digits[--at] = (char)('0' + n % 10);
    while (n /= 10);
    put(digits + at, 20 - at);
}

static void put_hex(const unsigned char *bytes, size_t len) {
    static const char names[] = "0123456789abcdef";
    while (len) {
        if (PAGE - used < 2) hand_over();
        size_t n = (PAGE - used) / 2 < len ? (PAGE - used) / 2 : len;
        for (size_t i = 0; i < n; i++) {
            page[used++] = (unsigned char)names[bytes[i] >> 4];
            page[used++] = (unsigned char)names[bytes[i] & 15];
        }
        bytes += n;
        len -= n;
    }
}

static void print(uint32_t place, const Request *r) {
    static const char *verbs[] = {" read ", " write ", " zero ", " flush "};
    put_number(place);
    put_text(" ");
    put_number(r->stream);
    put_text(verbs[r->verb]);
    if (r->refused) {
        put_text("einval\n");
        return;
    }
    put_text("ok");
    if (r->verb == READ) {
        put_text(" ");
        if (r->len) put_hex(r->bytes, r->len);
        else put_text("-");
    } else if (r->verb != FLUSH) {
        put_text(" ");
        put_number(r->len);
    }
    put_text("\n");
}

int main(void) {
    memset(digit_of, -1, sizeof digit_of);
    for (int i = 0; i < 10; i++) digit_of['0' + i] = (signed char)i;
    for (int i = 0; i < 6; i++) digit_of['a' + i] = digit_of['A' + i] = (signed char)(10 + i);
    size_t len = 0;
    while (len <= LONGEST) {
        ssize_t n = read(0, text + len, LONGEST + 1 - len < 4096 ? LONGEST + 1 - len : 4096);
        if (n < 0) refuse("input");
        if (!n) break;
        len += (size_t)n;
    }
    if (len > LONGEST) refuse("too long");
    read_script(len);
    image = calloc(LONGEST, 1);
    if (!image) refuse("memory");
    uint32_t errors = 0;
    for (uint32_t i = 0; i < count; i++) serve(&requests[i]);
    for (uint32_t i = 0; i < count; i++) {
        errors += (uint32_t)requests[i].refused;
        print(i, &requests[i]);
    }
    put_text("end ");
    put_number(count);
    put_text(" ");
    put_number(errors);
    put_text("\n");
    hand_over();
    return errors ? 1 : 0;
}
