/* The stripping program in plain C, to time the proved one against: `strip BOOK CLASS` cuts the export on standard input down to the columns
 * whose label the class covers. Built and run by bench/strip.py. The book is read and labelled as label.c does it. */
#define REFUSALS stderr
#include "label.c"

#include <unistd.h>

enum { MOST_RECORD = 4096, MOST_FIELDS = 256, ROOM = 65536 };

enum { CSV_SYNTAX = 16, CSV_HEADER = 17 };

static char in[ROOM], out[ROOM];
static size_t n_out;
static bool kept[MOST_FIELDS];
static int columns; /* 0 until the header is read */
static long record_number = 1;
static bool plain[256]; /* whether a field without quotes may hold the byte */

static void flush(void)
{
    for (size_t done = 0; done < n_out;) {
        ssize_t n = write(STDOUT_FILENO, out + done, n_out - done);
        if (n < 0) {
            perror("standard output");
            exit(0);
        }
        done += n;
    }
    n_out = 0;
}

/* Stops at the record that is being read; what was made of those before it is written. */
static void stop(int number)
{
    flush();
    fprintf(stderr, "form=1\nrefused=%d\nat=%ld\nend=3\n", number, record_number);
    exit(0);
}

/* The end of the field at p, which may be the end of the text; NULL if the text ends between quotes. */
static const char *field_end(const char *p, const char *end)
{
    if (p == end || *p != '"') {
        while (p < end && plain[(unsigned char)*p])
            p++;
        return p;
    }
    for (p++; p < end; p++) {
        if (*p != '"')
            continue;
        if (p + 1 == end || p[1] != '"')
            return p + 1;
        p++;
    }
    return NULL;
}

/* The header. */

static int item_of(const char *p, const char *end)
{
    struct name name;
    if (p < end && *p == '"') {
        p++;
        end--;
    }
    return take_name(&p, end, &name) && p == end ? find(&name) : -1;
}

static bool covers(struct class x, struct class y)
{
    return x.level >= y.level && (y.marks & ~x.marks) == 0;
}

static void read_header(const char *const *from, const char *const *to, int fields, struct class reader)
{
    bool seen[MOST_ITEMS] = {false};
    for (int c = 0; c < fields; c++) {
        int item = item_of(from[c], to[c]);
        if (item < 0 || seen[item])
            stop(CSV_HEADER);
        seen[item] = true;
        kept[c] = covers(reader, labels[item]);
    }
    columns = fields;
}

/* Strips the record at p. Answers the place behind it, or NULL if the text ends before it; `last` says that nothing follows the text. */
static const char *strip_record(const char *p, const char *end, bool last, struct class reader)
{
    const char *start = p, *from[MOST_FIELDS], *to[MOST_FIELDS];
    int fields = 0;
    for (;; p++) {
        const char *q = field_end(p, end);
        if (fields == MOST_FIELDS)
            stop(CSV_SYNTAX);
        if (q == NULL || (q == end && !last) || (q + 1 == end && *q == '\r')) {
            if (last || end - start >= MOST_RECORD + 2)
                stop(CSV_SYNTAX);
            return NULL;
        }
        from[fields] = p;
        to[fields++] = p = q;
        if (p == end || *p != ',')
            break;
    }
    if ((p < end && (p[0] != '\r' || p[1] != '\n')) || p - start > MOST_RECORD || (columns > 0 && fields != columns))
        stop(CSV_SYNTAX);
    if (columns == 0)
        read_header(from, to, fields, reader);

    if (n_out + MOST_RECORD + 2 > ROOM)
        flush();
    char *put = out + n_out;
    for (int c = 0; c < fields; c++) {
        if (!kept[c])
            continue;
        size_t length = to[c] - from[c];
        memcpy(put, from[c], length);
        put[length] = ',';
        put += length + 1;
    }
    if (put > out + n_out)
        put--;
    *put++ = '\r';
    *put++ = '\n';
    n_out = put - out;
    record_number++;
    return p == end ? p : p + 2;
}

static void strip(struct class reader)
{
    size_t have = 0;
    for (bool last = false; !last;) {
        ssize_t n = read(STDIN_FILENO, in + have, ROOM - have);
        if (n < 0) {
            perror("standard input");
            return;
        }
        last = n == 0;
        have += n;
        const char *p = in, *next;
        while (p < in + have && (next = strip_record(p, in + have, last, reader)) != NULL)
            p = next;
        have -= p - in;
        memmove(in, p, have);
    }
    if (record_number == 1)
        stop(CSV_SYNTAX);
    flush();
}

int main(int words, char **word)
{
    if (words != 3) {
        fputs("usage: strip BOOK CLASS\n", stderr);
        return 0;
    }
    FILE *book = fopen(word[1], "rb");
    if (book == NULL) {
        perror(word[1]);
        return 0;
    }
    size_t length = fread(text, 1, sizeof text, book);
    if (ferror(book)) {
        perror(word[1]);
        return 0;
    }
    if (length > MOST_BYTES)
        refuse(TOO_LONG, 0);
    read_book(text, text + length);
    solve();

    struct class reader;
    const char *p = word[2], *end = p + strlen(p);
    if (!take_class(&p, end, &reader) || p != end)
        refuse(BAD_LABEL, 0);
    for (int b = 0; b < 256; b++)
        plain[b] = b != ',' && b != '"' && b != '\r' && b != '\n';
    strip(reader);
    return 0;
}
