// What the tests of the library in C share.
#ifndef CHECKS_H
#define CHECKS_H
#include <hikebox.h>
#include <stdio.h>
#include <stdlib.h>
#include <string.h>

extern int wrong;
extern char input[1 << 20];

// A status that is not the one that is wanted is an error.
void wants_at(const char *file, int line, hikebox_status got, hikebox_status wanted);
#define wants(got, wanted) wants_at(__FILE__, __LINE__, got, wanted)

void holds_at(const char *file, int line, bool holds);
#define holds(what) holds_at(__FILE__, __LINE__, what)

void read_input(void);
hikebox_status read_policy(const char *json, hikebox_policy *policy);
hikebox_status make_node(const char *name, const uint64_t *numbers, size_t count, hikebox_policy *first,
                         hikebox_policy *second, hikebox_policy *made);

// The tests of policies.c, each as its word says.
int plan(char **words);
int nodes(void);
int policies(void);
int courses(void);

// Those of leases.c.
int leased(void);

// Those of limits.c. `draws` and `admits` make a call, which is refused or not, and look at what the refusal says.
int limits(void);
void draws(hikebox_limit *limit, uint64_t now, uint64_t cost, hikebox_status wanted, uint64_t says);
void admits(hikebox_limit *limit, uint64_t now, hikebox_status wanted, uint64_t says);

// Those of looks.c and of states.c, which limits() makes.
void limits_looked_at(void);
void limits_seen(void);

// Those of paces.c.
int paces(void);

// Those of structs.c.
int sizes(void);
int reads(void);
int runs(void);
#endif
