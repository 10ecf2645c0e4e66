/* A host in C: Case T of 01, every call once, and what was refused. Prints nothing but what it was answered. */
#include "bellgantlet.h"
#include <stdio.h>
#include <string.h>

#define N(a) (sizeof(a) / sizeof((a)[0]))

static const uint16_t signature[] = {6, 0, 2, 1, 2, 1, 0, 1, 0, 1, 0, 2, 0, 2, 0};
static uint16_t table[BELLGANTLET_TABLE];
static uint16_t witness[BELLGANTLET_WITNESS];
static uint16_t space[BELLGANTLET_TREE];

static void enter(uint16_t number, uint16_t plan, const uint16_t *pattern, size_t n)
{
    bellgantlet_entered e = bellgantlet_enter(signature, N(signature), number, plan, pattern, n, table, N(table), witness, N(witness));
    printf("enter %u: %u. %s", number, e.number, bellgantlet_refusal_text(e.number));
    if (e.number == BELLGANTLET_SHARES_BOOKING) {
        printf(" Rule %u:", e.rule);
        for (size_t i = 0; i < e.length; i++)
            printf(" %u", witness[i]);
    }
    printf("\n");
}

static void show(const char *call, bellgantlet_answer a)
{
    printf("%s: %u, ", call, a.number);
    if (a.number == 0 && a.rule == 0)
        printf("no rule, plan %u", a.plan);
    else
        printf("rule %u, plan %u", a.rule, a.plan);
    for (int x = 0; x < BELLGANTLET_VARIABLES; x++)
        if (a.number == 0 && a.places[x] != BELLGANTLET_UNBOUND)
            printf(", variable %d at %u", x, a.places[x]);
    printf("\n");
}

/* A booking that no rule takes. */
static void gap(void)
{
    bellgantlet_shown s = bellgantlet_gap(signature, N(signature), table, N(table), witness, N(witness));
    printf("gap: %u.", s.number);
    for (size_t i = 0; i < s.length; i++)
        printf(" %u", witness[i]);
    printf(s.number == 0 && s.length == 0 ? " None.\n" : "\n");
}

/* A booking whose words arrive one by one. */
static void arrive(const uint16_t *words, size_t n)
{
    bellgantlet_check check;
    printf("check: begin %u", bellgantlet_check_begin(signature, N(signature), &check));
    for (size_t i = 0; i < n; i++)
        printf(", %u: step %u", words[i], bellgantlet_check_step(signature, N(signature), &check, words[i]));
    printf(", end %u\n", bellgantlet_check_end(&check));
}

/* The day's tally, as dispatch prints it. */
static void tally(const uint16_t *log, size_t n)
{
    bellgantlet_tallied t = bellgantlet_tally(log, n);
    printf("tally of %zu: %u. %s\n", n, t.number, bellgantlet_refusal_text(t.number));
    if (t.number != BELLGANTLET_DONE)
        return;
    for (int rule = 0; rule < BELLGANTLET_RULE_NUMBERS; rule++)
        if (t.counts[rule] != 0)
            printf("rule=%d count=%u\n", rule, t.counts[rule]);
    printf("total=%u\n", t.total);
}

/* Open charges answered again by the tree in the space, and their records. */
static void replan(uint16_t *charges, size_t n, size_t tree)
{
    bellgantlet_replanned r = bellgantlet_replan(signature, N(signature), space, tree, charges, n);
    printf("replan: %u, %u changed. %s\n", r.number, r.changed, bellgantlet_refusal_text(r.number));
    for (size_t at = 0; at + BELLGANTLET_CHARGE <= n; at += BELLGANTLET_CHARGE) {
        printf("rule %u, plan %u, booking", charges[at], charges[at + 1]);
        for (size_t i = 0; i < charges[at + 2] && i < BELLGANTLET_CHARGE_BOOKING; i++)
            printf(" %u", charges[at + 3 + i]);
        printf("\n");
    }
}

int main(void)
{
    static const uint16_t seven[] = {0, 1, 261}, nine[] = {0, 260, 1, 5}, other[] = {0, 258, 4}, left[] = {0, 1, 5};
    static const uint16_t bookings[][3] = {{0, 1, 5}, {0, 2, 5}, {0, 3, 4}, {0, 1, 1}};
    static uint16_t log[BELLGANTLET_LOG + 1];
    static uint16_t charges[BELLGANTLET_CHARGES * BELLGANTLET_CHARGE];
    size_t logged = 0, plugged = 0;
    bellgantlet_answer a;
    bellgantlet_tree t;
    bellgantlet_part_at p;
    bellgantlet_shown s;

    printf("bellgantlet %s\n", BELLGANTLET_VERSION);
    printf("empty: %u\n", bellgantlet_empty(table, N(table)));
    printf("empty, too short: %u\n", bellgantlet_empty(table, N(table) - 1));
    enter(7, 40, seven, N(seven));
    enter(9, 41, nine, N(nine));
    enter(8, 42, other, N(other));
    enter(1000, 42, other, N(other));
    t = bellgantlet_compile(signature, N(signature), table, N(table), space, 38);
    printf("compile into 38 words: %u, %zu\n", t.number, t.length);
    t = bellgantlet_compile(signature, N(signature), table, N(table), space, N(space));
    printf("compile: %u, %zu\n", t.number, t.length);
    for (size_t i = 0; i < N(bookings); i++) {
        a = bellgantlet_run(signature, N(signature), space, t.length, bookings[i], 3);
        show("run", a);
        if (a.number == BELLGANTLET_DONE) {
            uint16_t record[BELLGANTLET_CHARGE] = {a.rule, a.plan, 3, bookings[i][0], bookings[i][1], bookings[i][2]};
            memcpy(charges + plugged, record, sizeof record);
            plugged += BELLGANTLET_CHARGE;
            log[logged++] = a.rule;
        }
        show("decide", bellgantlet_decide(signature, N(signature), table, N(table), bookings[i], 3));
    }
    printf("set default 2: %u\n", bellgantlet_set_default(signature, N(signature), 2, table, N(table)));
    printf("set default 3, too short: %u\n", bellgantlet_set_default(signature, N(signature), 3, table, N(table) - 1));
    show("decide", bellgantlet_decide(signature, N(signature), table, N(table), bookings[2], 3));
    show("run, compiled before", bellgantlet_run(signature, N(signature), space, t.length, bookings[2], 3));
    t = bellgantlet_compile(signature, N(signature), table, N(table), space, N(space));
    show("run, compiled again", bellgantlet_run(signature, N(signature), space, t.length, bookings[2], 3));
    printf("withdraw 7: %u\n", bellgantlet_withdraw(signature, N(signature), 7, table, N(table)));
    printf("withdraw 7: %u\n", bellgantlet_withdraw(signature, N(signature), 7, table, N(table)));
    enter(8, 42, other, N(other));
    gap();
    enter(10, 43, left, N(left));
    gap();
    s = bellgantlet_gap(signature, N(signature), table, N(table), witness, N(witness) - 1);
    printf("gap, too short: %u, %zu\n", s.number, s.length);
    p = bellgantlet_part(signature, N(signature), bookings[0], 3, 1);
    printf("part at 1: %u, %zu from %zu\n", p.number, p.length, p.start);
    p = bellgantlet_part(signature, N(signature), bookings[0], 3, 3);
    printf("part at 3: %u, %zu from %zu\n", p.number, p.length, p.start);
    arrive(bookings[0], 3);
    arrive(bookings[0], 2);
    arrive(bookings[3], 3);
    log[logged++] = 9;
    tally(log, logged);
    tally(log, 0);
    tally(log, N(log));
    log[logged++] = 1000;
    tally(log, logged);
    /* the rules and the default are others than those that the open charges were answered by */
    t = bellgantlet_compile(signature, N(signature), table, N(table), space, N(space));
    replan(charges, plugged, t.length);
    replan(charges, plugged, t.length);
    replan(charges, 0, 0);
    replan(charges, BELLGANTLET_CHARGE, 0);
    charges[2] = 2;
    replan(charges, plugged, t.length);
    return 0;
}
