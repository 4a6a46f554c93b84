/* Answers the cases of a table: from standard input to standard output.
   The parser that bison makes finds the faults of the grammar, the lexer that flex makes those of the bytes, and the
   functions below those of the limits. All are noted, each with its token, and the first of them is the answer. */
#include "hoa.tab.h"
#include <stdio.h>
#include <stdlib.h>
#include <string.h>

enum { MOST_BYTES = 61440, MOST_STATES = 64, MOST_SIGNALS = 4, MOST_OPEN = 16, TABLE_CELLS = 4096, MOST_NODES = 70000 };

int yylex(void);
void *yy_scan_bytes(const char *bytes, int count);
void yy_delete_buffer(void *buffer);
extern char *yytext;

/* The first fault so far: that of the lowest token, then of the lowest layer, then with the lowest number. */
static int faulty, fault_token, fault_layer, fault_number;
static size_t fault_place;

static void note(int token, size_t at, int layer, int number)
{
    long old = ((long)fault_token * 4 + fault_layer) * 100 + fault_number;
    long new = ((long)token * 4 + layer) * 100 + number;
    if (faulty && old <= new)
        return;
    faulty = 1;
    fault_token = token;
    fault_layer = layer;
    fault_number = number;
    fault_place = at;
}

static int n, p, names, described[MOST_STATES], starting[MOST_STATES], good_state[MOST_STATES], from, open_now, nodes;
static char seen[MOST_SIGNALS][40];
static int step[MOST_STATES][16][MOST_STATES];
static struct label tree[MOST_NODES];

static void clear(void)
{
    faulty = n = p = names = from = open_now = nodes = 0;
    memset(described, 0, sizeof described);
    memset(starting, 0, sizeof starting);
    memset(good_state, 0, sizeof good_state);
    memset(step, 0, sizeof step);
}

static int is_state(struct token t)
{
    if (t.number < n)
        return 1;
    note(t.index, t.place, 3, 15);
    return 0;
}

void states(struct token t)
{
    n = t.number;
    if (n > MOST_STATES) {
        note(t.index, t.place, 3, 14);
        n = MOST_STATES;
    }
}

void too_many_signals(struct token t) { note(t.index, t.place, 3, 14); }

void signals(int count) { p = count; }

void name(struct token t)
{
    for (int i = 0; i < names; i++)
        if (strcmp(seen[i], t.name) == 0)
            note(t.index, t.place, 3, 16);
    if (names < MOST_SIGNALS)
        strcpy(seen[names++], t.name);
}

void start(struct token t)
{
    if (is_state(t))
        starting[t.number] = 1;
}

void block(struct token t)
{
    if (!is_state(t))
        return;
    if (described[t.number])
        note(t.index, t.place, 3, 16);
    described[t.number] = 1;
    from = t.number;
}

void good(void) { good_state[from] = 1; }

void signal_number(struct token t)
{
    if (t.number >= p)
        note(t.index, t.place, 3, 15);
}

void enter(struct token t)
{
    open_now++;
    if (open_now > MOST_OPEN)
        note(t.index, t.place, 2, 17);
}

void leave(void) { open_now--; }

struct label *made(char kind, int signal, struct label *left, struct label *right)
{
    struct label *l = &tree[nodes++];
    if (nodes >= MOST_NODES)
        abort();
    l->kind = kind;
    l->signal = signal;
    l->left = left;
    l->right = right;
    return l;
}

static int holds(struct label *l, int letter)
{
    switch (l->kind) {
    case 't': return 1;
    case 'f': return 0;
    case '0': return l->signal < 4 && (letter >> l->signal & 1);
    case '!': return !holds(l->left, letter);
    case '&': return holds(l->left, letter) && holds(l->right, letter);
    case '|': return holds(l->left, letter) || holds(l->right, letter);
    }
    abort();
}

void edge(struct label *l, struct token t)
{
    if (!is_state(t))
        return;
    for (int a = 0; a < 1 << p; a++)
        if (l == NULL || holds(l, a))
            step[from][a][t.number] = 1;
    nodes = 0;
}

void yyerror(const char *message) { (void)message; }

/* Scans and parses a text until its end or until the lexer or the parser stops, and notes all faults. */
static void parse(const char *text, size_t size)
{
    clear();
    if (size > MOST_BYTES) {
        note(0, MOST_BYTES, 1, 18);
        return;
    }
    behind = 0;
    void *buffer = yy_scan_bytes(text, (int)size);
    yypstate *parser = yypstate_new();
    for (int index = 1;; index++) {
        int kind = yylex();
        if (kind == BAD_BYTE || kind == BAD_NUMBER) {
            note(index, place, 1, kind == BAD_BYTE ? 11 : 12);
            break;
        }
        YYSTYPE value;
        memset(&value, 0, sizeof value);
        value.token.index = index;
        value.token.place = place;
        if (kind >= N0 && kind <= NUMBER)
            value.token.number = atoi(yytext);
        if (kind == NAME)
            strcpy(value.token.name, yytext);
        int status = yypush_parse(parser, kind, &value);
        if (status == 1)
            note(index, place, 2, 13);
        if (status != YYPUSH_MORE)
            break;
    }
    yypstate_delete(parser);
    yy_delete_buffer(buffer);
}

static void print_automaton(void)
{
    printf("read %d %d starts", n, p);
    for (int s = 0; s < n; s++)
        if (starting[s])
            printf(" %d", s);
    printf(" good");
    for (int s = 0; s < n; s++)
        if (good_state[s])
            printf(" %d", s);
    printf(" steps");
    for (int s = 0; s < n; s++)
        for (int t = 0; t < n; t++) {
            unsigned letters = 0;
            for (int a = 0; a < 16; a++)
                if (step[s][a][t])
                    letters |= 1u << a;
            if (letters)
                printf(" %d>%d:%04x", s, t, letters);
        }
    printf("\n");
}

/* The bytes of a text that is written with escapes. */
static size_t unescape(const char *from, char *to)
{
    size_t count = 0;
    while (*from) {
        if (*from != '\\') {
            to[count++] = *from++;
            continue;
        }
        unsigned byte;
        switch (from[1]) {
        case 'n': to[count++] = '\n'; from += 2; break;
        case 't': to[count++] = '\t'; from += 2; break;
        case 'r': to[count++] = '\r'; from += 2; break;
        case '\\': to[count++] = '\\'; from += 2; break;
        case 'x':
            if (sscanf(from + 2, "%2x", &byte) != 1)
                abort();
            to[count++] = (char)byte;
            from += 4;
            break;
        default: abort();
        }
    }
    return count;
}

int main(void)
{
    static char line[400000], text[400000], label[200];
    while (fgets(line, sizeof line, stdin)) {
        line[strcspn(line, "\n")] = 0;
        size_t cells, size;
        int begin;
        if (sscanf(line, "%199s %zu %zu %n", label, &cells, &size, &begin) != 3)
            abort();
        /* %n may have passed blanks that belong to the text: the text begins behind the third space. */
        char *rest = line;
        for (int i = 0; i < 3; i++)
            rest = strchr(rest, ' ') + 1;
        size_t count = unescape(rest, text);
        while (count < size)
            text[count++] = ' ';
        printf("%s ", label);
        if (cells < TABLE_CELLS) {
            printf("refused 21\n");
            continue;
        }
        parse(text, count);
        if (faulty)
            printf("refused %d %zu %d\n", fault_number, fault_place, fault_layer);
        else
            print_automaton();
    }
}
