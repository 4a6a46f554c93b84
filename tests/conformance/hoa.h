/* What the lexer, the grammar and the checks of the limits share. */
#pragma once
#include <stddef.h>

/* A token: its index and place in the text, and what it holds. */
struct token {
    int index;
    size_t place;
    int number;
    char name[40];
};

/* A label, as a tree. */
struct label {
    char kind; /* t f 0 ! & | */
    int signal;
    struct label *left, *right;
};

/* The first byte of the token that was scanned last, and the byte behind it. */
extern size_t place, behind;

/* What the document says, as far as it was read. */
void states(struct token n);
void signals(int p);
void too_many_signals(struct token p);
void name(struct token t);
void start(struct token s);
void block(struct token s);
void good(void);
void edge(struct label *l, struct token t);
void enter(struct token t);
void leave(void);
void signal_number(struct token t);
struct label *made(char kind, int signal, struct label *left, struct label *right);
