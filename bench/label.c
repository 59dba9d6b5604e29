/* The labelling program in plain C, to time the proved one against: reads a rulebook from standard input and prints the wanted labels, or
 * the number and place of the refusal. Built and run by bench/label.py. */
#include <stdbool.h>
#include <stdint.h>
#include <stdio.h>
#include <stdlib.h>
#include <string.h>

/* bench/strip.c includes this file, and has a main of its own and its refusals elsewhere. */
#ifndef REFUSALS
#define REFUSALS stdout
#define LABEL_MAIN
#endif

enum { MOST_BYTES = 32768, MOST_ITEMS = 256, MOST_RULES = 1024, MOST_LEFT = 8, MOST_NAME = 16, TOP_LEVEL = 15 };

enum refusal {
    TOO_LONG = 1,
    SYNTAX,
    ORDER,
    TOO_MANY,
    NAME_TWICE,
    NO_SUCH_ITEM,
    LEFT_ORDER,
    END_COUNT,
    NO_LABELLING,
    BAD_LABEL = 12
};

enum key { FORM, ITEM, CAP, FLOOR, FOLLOW, END, START };

static const char *const key_text[] = {"form=", "item=", "cap=", "floor=", "follow=", "end="};

/* may_follow[after][key], rows in the order of enum key; nothing is looked up after END. */
static const bool may_follow[][6] = {
    [START] = {1, 0, 0, 0, 0, 0}, [FORM] = {0, 1, 1, 1, 1, 1},  [ITEM] = {0, 1, 1, 1, 1, 1},
    [CAP] = {0, 0, 1, 1, 1, 1},   [FLOOR] = {0, 0, 0, 1, 1, 1}, [FOLLOW] = {0, 0, 0, 0, 1, 1},
};

struct class {
    unsigned level;
    uint64_t marks;
};

/* A name, with zeros after its end. */
struct name {
    char bytes[MOST_NAME];
};

struct line {
    enum key key;
    int lefts; /* all of them, though only the first eight are kept */
    struct name left[MOST_LEFT];
    struct name right; /* of an item line, the item */
    struct class class;
    long count;
};

struct rule {
    int lefts;
    int left[MOST_LEFT];
    int right;          /* of a follow */
    struct class class; /* of a floor */
};

static char text[MOST_BYTES + 1];
static struct name items[MOST_ITEMS];
static struct rule floors[MOST_RULES], follows[MOST_RULES];
static struct class labels[MOST_ITEMS]; /* while reading, the caps */
static int n_items, n_rules, n_floors, n_follows;

static void refuse(enum refusal number, int place)
{
    fprintf(REFUSALS, "form=1\nrefused=%d\nat=%d\nend=3\n", number, place);
    exit(0);
}

/* ---- One line. Each of these takes what it reads off the front of *p and answers whether it was there. */

static bool take(const char **p, const char *end, char c)
{
    if (*p == end || **p != c)
        return false;
    ++*p;
    return true;
}

static bool in_name(char c)
{
    return (c >= 'a' && c <= 'z') || (c >= '0' && c <= '9') || c == '-';
}

static bool take_name(const char **p, const char *end, struct name *name)
{
    const char *q = *p;
    while (q < end && in_name(*q))
        q++;
    size_t length = q - *p;
    if (length == 0 || length > MOST_NAME)
        return false;
    memset(name->bytes, 0, MOST_NAME);
    memcpy(name->bytes, *p, length);
    *p = q;
    return true;
}

/* A decimal number of at most this many digits, with no leading zero. */
static bool take_number(const char **p, const char *end, int digits, long *value)
{
    const char *q = *p;
    long v = 0;
    while (q < end && *q >= '0' && *q <= '9' && q - *p < digits)
        v = 10 * v + (*q++ - '0');
    if (q == *p || (**p == '0' && q - *p > 1))
        return false;
    *p = q;
    *value = v;
    return true;
}

static bool take_class(const char **p, const char *end, struct class *class)
{
    long level;
    if (!take_number(p, end, 2, &level) || level > TOP_LEVEL || !take(p, end, '/') || end - *p < 16)
        return false;
    uint64_t marks = 0;
    for (int i = 0; i < 16; i++) {
        char c = *(*p)++;
        if (c >= '0' && c <= '9')
            marks = marks << 4 | (c - '0');
        else if (c >= 'a' && c <= 'f')
            marks = marks << 4 | (c - 'a' + 10);
        else
            return false;
    }
    *class = (struct class){level, marks};
    return true;
}

static bool take_left(const char **p, const char *end, struct line *line)
{
    struct name name;
    do {
        if (!take_name(p, end, &name))
            return false;
        if (line->lefts < MOST_LEFT)
            line->left[line->lefts] = name;
        line->lefts++;
    } while (take(p, end, '+'));
    return take(p, end, ':');
}

static bool take_value(const char **p, const char *end, struct line *line)
{
    switch (line->key) {
    case FORM:
        return take(p, end, '1');
    case ITEM:
        return take_name(p, end, &line->right);
    case CAP:
        line->lefts = 1;
        return take_name(p, end, &line->left[0]) && take(p, end, ':') && take_class(p, end, &line->class);
    case FLOOR:
        return take_left(p, end, line) && take_class(p, end, &line->class);
    case FOLLOW:
        return take_left(p, end, line) && take_name(p, end, &line->right);
    default:
        return take_number(p, end, 5, &line->count);
    }
}

/* The line from p to its end, without its LF. */
static bool parse(const char *p, const char *end, struct line *line)
{
    line->lefts = 0;
    for (int key = FORM; key <= END; key++) {
        size_t length = strlen(key_text[key]);
        if ((size_t)(end - p) >= length && memcmp(p, key_text[key], length) == 0) {
            line->key = key;
            p += length;
            return take_value(&p, end, line) && p == end;
        }
    }
    return false;
}

/* ---- The book. */

static int find(const struct name *name)
{
    for (int i = 0; i < n_items; i++)
        if (memcmp(&items[i], name, sizeof *name) == 0)
            return i;
    return -1;
}

static int find_or_refuse(const struct name *name, int at)
{
    int i = find(name);
    if (i < 0)
        refuse(NO_SUCH_ITEM, at);
    return i;
}

static void add_item(const struct line *line, int at)
{
    if (n_items == MOST_ITEMS)
        refuse(TOO_MANY, at);
    if (find(&line->right) >= 0)
        refuse(NAME_TWICE, at);
    items[n_items] = line->right;
    labels[n_items] = (struct class){TOP_LEVEL, UINT64_MAX};
    n_items++;
}

/* Lowers *x to what it has in common with a bound. Answers whether that changed it. */
static bool lower(struct class *x, struct class bound)
{
    struct class old = *x;
    if (x->level > bound.level)
        x->level = bound.level;
    x->marks &= bound.marks;
    return x->level != old.level || x->marks != old.marks;
}

static void add_rule(const struct line *line, int at)
{
    struct rule rule = {.lefts = line->lefts, .class = line->class};
    if (n_rules == MOST_RULES || line->lefts > MOST_LEFT)
        refuse(TOO_MANY, at);
    for (int k = 0; k < line->lefts; k++)
        rule.left[k] = find_or_refuse(&line->left[k], at);
    if (line->key == FOLLOW)
        rule.right = find_or_refuse(&line->right, at);
    for (int k = 1; k < line->lefts; k++)
        if (rule.left[k - 1] >= rule.left[k])
            refuse(LEFT_ORDER, at);
    n_rules++;
    if (line->key == CAP)
        lower(&labels[rule.left[0]], rule.class);
    else if (line->key == FLOOR)
        floors[n_floors++] = rule;
    else
        follows[n_follows++] = rule;
}

static void read_book(const char *p, const char *end)
{
    enum key after = START;
    struct line line = {0};
    int at = 1;
    for (; p < end; at++) {
        if (after == END)
            refuse(END_COUNT, at);
        const char *lf = memchr(p, '\n', end - p);
        if (lf == NULL || !parse(p, lf, &line))
            refuse(SYNTAX, at);
        if (!may_follow[after][line.key])
            refuse(ORDER, at);
        if (line.key == ITEM)
            add_item(&line, at);
        else if (line.key == CAP || line.key == FLOOR || line.key == FOLLOW)
            add_rule(&line, at);
        else if (line.key == END && line.count != at - 1)
            refuse(END_COUNT, at);
        after = line.key;
        p = lf + 1;
    }
    if (after != END)
        refuse(END_COUNT, at);
}

/* ---- The labels. */

static struct class left_join(const struct rule *rule, const struct class *x)
{
    struct class join = {0, 0};
    for (int k = 0; k < rule->lefts; k++) {
        const struct class *y = &x[rule->left[k]];
        if (y->level > join.level)
            join.level = y->level;
        join.marks |= y->marks;
    }
    return join;
}

/* Lowers labels that keep the caps to the greatest ones below them that meet every follow, by sweeps there and back. */
static void settle(struct class *x)
{
    for (bool back = false, changed = true; changed; back = !back) {
        changed = false;
        for (int k = 0; k < n_follows; k++) {
            const struct rule *rule = &follows[back ? n_follows - 1 - k : k];
            changed |= lower(&x[rule->right], left_join(rule, x));
        }
    }
}

/* The parts in which some floor is not met: level 1 if it is the level, and the marks. */
static struct class unmet(const struct class *x)
{
    struct class all = {0, 0};
    for (int k = 0; k < n_floors; k++) {
        struct class join = left_join(&floors[k], x);
        if (join.level < floors[k].class.level)
            all.level = 1;
        all.marks |= floors[k].class.marks & ~join.marks;
    }
    return all;
}

/* Takes every mark of item i that can go, and what falls with it. */
static void lower_marks(int i)
{
    struct class tried[MOST_ITEMS];
    if (labels[i].marks == 0)
        return;
    memcpy(tried, labels, n_items * sizeof *labels);
    tried[i].marks = 0;
    settle(tried);
    uint64_t stay = unmet(tried).marks;
    for (int j = 0; j < n_items; j++)
        labels[j].marks &= tried[j].marks | stay;
}

/* Takes the least level of item i that leaves a labelling, and what falls with it. */
static void lower_level(int i)
{
    struct class tried[MOST_ITEMS];
    for (unsigned level = 0; level < labels[i].level; level++) {
        memcpy(tried, labels, n_items * sizeof *labels);
        tried[i].level = level;
        settle(tried);
        if (unmet(tried).level == 0) {
            memcpy(labels, tried, n_items * sizeof *labels);
            return;
        }
    }
}

static void solve(void)
{
    settle(labels);
    struct class without = unmet(labels);
    if (without.level != 0)
        refuse(NO_LABELLING, 0);
    if (without.marks != 0)
        refuse(NO_LABELLING, __builtin_ctzll(without.marks) + 1);
    for (int i = 0; i < n_items; i++) {
        lower_marks(i);
        lower_level(i);
    }
}

#ifdef LABEL_MAIN
int main(void)
{
    size_t length = fread(text, 1, sizeof text, stdin);
    if (length > MOST_BYTES)
        refuse(TOO_LONG, 0);
    read_book(text, text + length);
    solve();
    puts("form=1");
    for (int i = 0; i < n_items; i++)
        printf("label=%.16s:%u/%016llx\n", items[i].bytes, labels[i].level, (unsigned long long)labels[i].marks);
    printf("end=%d\n", n_items + 1);
    return 0;
}
#endif
