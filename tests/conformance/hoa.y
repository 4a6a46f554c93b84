/* The grammar of documents, for bison. The token at which the parser stops is the first that no document has there. */
%define api.pure full
%define api.push-pull push
%define lr.default-reduction consistent
%code requires {
#include "hoa.h"
}
%code provides {
void yyerror(const char *message);
}
%union {
    struct token token;
    struct label *label;
}
%token HOA "HOA:" V1 "v1" STATES "States:" START "Start:" AP "AP:" ACC_NAME "acc-name:" BUCHI "Buchi"
%token ACCEPTANCE "Acceptance:" INF "Inf" BODY "--BODY--" END "--END--" STATE "State:" OTHER_WORD
%token BAD_BYTE BAD_NUMBER
%token <token> ALL "t" NONE "f" N0 "0" N1 "1" N2 "2" N3 "3" N4 "4" NUMBER NAME '!' '('
%type <token> number
%type <label> label term factor
%%
document: "HOA:" "v1" "States:" n starts "AP:" p acc-name
          "Acceptance:" "1" "Inf" '(' "0" ')' "--BODY--" blocks "--END--";
n:        number                            { states($1); };
starts:   %empty | starts "Start:" number   { start($3); };
p:        "0"                               { signals(0); }
        | "1" name                          { signals(1); }
        | "2" name name                     { signals(2); }
        | "3" name name name                { signals(3); }
        | "4" name name name name           { signals(4); }
        | NUMBER                            { too_many_signals($1); };
name:     NAME                              { name($1); };
acc-name: %empty | "acc-name:" "Buchi";
blocks:   %empty | blocks block;
block:    "State:" number                   { block($2); }
          mark edges;
mark:     %empty | '{' "0" '}'              { good(); };
edges:    %empty | edges edge;
edge:     number                            { edge(NULL, $1); }
        | '[' label ']' number              { edge($2, $4); };
label:    term | label '|' term             { $$ = made('|', 0, $1, $3); };
term:     factor | term '&' factor          { $$ = made('&', 0, $1, $3); };
factor:   "t"                               { $$ = made('t', 0, NULL, NULL); }
        | "f"                               { $$ = made('f', 0, NULL, NULL); }
        | number                            { signal_number($1); $$ = made('0', $1.number, NULL, NULL); }
        | '!'                               { enter($1); }
          factor                            { leave(); $$ = made('!', 0, $3, NULL); }
        | '('                               { enter($1); }
          label ')'                         { leave(); $$ = $3; };
number:   "0" | "1" | "2" | "3" | "4" | NUMBER;
%%
