/* Bellgantlet: which charging plan a booking gets.
 *
 * Link target/staticlib/libbellgantlet.a, which `sh host/library` proves and builds (x86-64 Linux).
 *
 * Words are 16 bits. A slice is a pointer and a number of words; the pointer is not null, also where the number is 0.
 * What a call writes (table, witness, space, check, charges) must not overlap anything else that the same call is lent. No call
 * keeps a pointer, allocates, or fails otherwise than by its number; each is defined on every content of what it is lent.
 * A call may run at the same time as any other that does not write what it is lent.
 *
 * Tables and trees that were stored before version 0.5.0 have another form, and nothing tells it from this one: empty such a
 * table, enter its rules again, and compile again.
 *
 * Every answer has a number: 0, or that of the first refusal that applies, in the order given. On a refusal all other
 * results are 0 and nothing is written, except on 12, and by a check, which keeps the number.
 *
 * Stack: a call takes up to BELLGANTLET_STACK_ENTER bytes and its like. What a thread itself needs comes on top:
 * PTHREAD_STACK_MIN and the host's own functions. A stack that is too small ends the program: nothing else is written.
 */
#ifndef BELLGANTLET_H
#define BELLGANTLET_H

#include <stddef.h>
#include <stdint.h>

#ifdef __cplusplus
extern "C" {
#endif

#define BELLGANTLET_VERSION "0.8.0"
#define BELLGANTLET_VERSION_NUMBER 800  /* 10,000 times the first number, 100 times the second, the third */

enum {
    BELLGANTLET_SIGNATURE = 1533,   /* the most words of a lawful signature: 255 constructors with four arguments, one without */
    BELLGANTLET_TABLE = 4290,       /* the words of a table: how many rules it has, its default plan, the rules */
    BELLGANTLET_WITNESS = 4096,     /* the words of a witness buffer */
    BELLGANTLET_TREE = 32768,       /* the most words of a tree */
    BELLGANTLET_BOOKING = 4096,     /* the most words of a booking */
    BELLGANTLET_PATTERN = 64,       /* the most words of a pattern */
    BELLGANTLET_CHECK_WORDS = 835,  /* the words of a check */
    BELLGANTLET_LAST_RULE = 999,    /* rules are numbered from 1 */
    BELLGANTLET_RULE_NUMBERS = 1000, /* these, and the default as rule 0 */
    BELLGANTLET_LOG = 4096,         /* the most entries of a log */
    BELLGANTLET_CHARGES = 48,       /* the most records of a list of open charges */
    BELLGANTLET_CHARGE = 64,        /* the words of a record: rule, plan, booking length, booking, zeros */
    BELLGANTLET_CHARGE_BOOKING = 61, /* the most words of a booking in a record */
    BELLGANTLET_VARIABLES = 16,
    BELLGANTLET_LEVEL = 1000,       /* the word of level 0 at a number kind; of level n it is n more */
    BELLGANTLET_LAST_LEVEL = 100,
    BELLGANTLET_UNBOUND = 65535     /* the place of a variable that is not bound */
};

/* Bytes of stack that a call takes at most: the worst that was measured, with a margin of at least 15 %. */
enum {
    BELLGANTLET_STACK_EMPTY = 4096,
    BELLGANTLET_STACK_ENTER = 860160,
    BELLGANTLET_STACK_WITHDRAW = 860160,
    BELLGANTLET_STACK_SET_DEFAULT = 860160,
    BELLGANTLET_STACK_DECIDE = 860160,
    BELLGANTLET_STACK_GAP = 1507328,
    BELLGANTLET_STACK_COMPILE = 2228224,
    BELLGANTLET_STACK_RUN = 16384,
    BELLGANTLET_STACK_PART = 8192,
    BELLGANTLET_STACK_CHECK_BEGIN = 8192,
    BELLGANTLET_STACK_CHECK_STEP = 4096,
    BELLGANTLET_STACK_CHECK_END = 4096,
    BELLGANTLET_STACK_TALLY = 8192,
    BELLGANTLET_STACK_REPLAN = 16384,
    BELLGANTLET_STACK_ANY = 2228224     /* the most of all calls */
};

/* The numbers; bellgantlet_refusal_text says what each means. */
enum {
    BELLGANTLET_DONE = 0,
    BELLGANTLET_SIGNATURE_UNLAWFUL = 1,
    BELLGANTLET_TOO_SHORT = 2,
    BELLGANTLET_TABLE_UNSOUND = 3,
    BELLGANTLET_NUMBER_OUTSIDE = 4,
    BELLGANTLET_NUMBER_HELD = 5,
    BELLGANTLET_NOT_HELD = 6,
    BELLGANTLET_PATTERN_MALFORMED = 7,
    BELLGANTLET_NOT_LINEAR = 8,
    BELLGANTLET_TOO_HEAVY = 9,
    BELLGANTLET_AMBIGUOUS = 10,
    BELLGANTLET_FULL = 11,
    BELLGANTLET_SHARES_BOOKING = 12,
    BELLGANTLET_BOOKING_UNLAWFUL = 13,
    BELLGANTLET_TREE_TOO_LARGE = 14,
    BELLGANTLET_TREE_BROKEN = 15,
    BELLGANTLET_PLACE_OUTSIDE = 16,
    BELLGANTLET_RANGE_WRONG = 18,   /* in checking order directly after 7 */
    BELLGANTLET_LOG_BEYOND = 19,
    BELLGANTLET_CHARGES_MALFORMED = 20
};

/* What a number means, for a planner. */
static inline const char *bellgantlet_refusal_text(uint16_t number)
{
    switch (number) {
    case BELLGANTLET_DONE: return "Done.";
    case BELLGANTLET_SIGNATURE_UNLAWFUL: return "The signature is unlawful.";
    case BELLGANTLET_TOO_SHORT: return "A lent table is under 4,290 words or a witness buffer under 4,096.";
    case BELLGANTLET_TABLE_UNSOUND: return "The table is not sound.";
    case BELLGANTLET_NUMBER_OUTSIDE: return "The rule number is not 1 to 999.";
    case BELLGANTLET_NUMBER_HELD: return "The number to enter is held.";
    case BELLGANTLET_NOT_HELD: return "The number to withdraw is not held.";
    case BELLGANTLET_PATTERN_MALFORMED: return "The pattern is malformed.";
    case BELLGANTLET_NOT_LINEAR: return "The pattern is not linear-plus: some variable would be bound twice, or in one branch only.";
    case BELLGANTLET_TOO_HEAVY: return "Some part of the pattern weighs over 64.";
    case BELLGANTLET_AMBIGUOUS: return "The pattern is ambiguous: it could bind its variables in two ways.";
    case BELLGANTLET_FULL: return "64 rules are held, or weights would total over 256.";
    case BELLGANTLET_SHARES_BOOKING: return "The rule shares a booking with a held rule.";
    case BELLGANTLET_BOOKING_UNLAWFUL: return "The booking is unlawful.";
    case BELLGANTLET_TREE_TOO_LARGE: return "The tree exceeds the lent slice or 32,768 words.";
    case BELLGANTLET_TREE_BROKEN: return "The tree is broken.";
    case BELLGANTLET_PLACE_OUTSIDE: return "The place is not below the booking's length.";
    case BELLGANTLET_RANGE_WRONG: return "The low of a range exceeds its high, or its high exceeds 100.";
    case BELLGANTLET_LOG_BEYOND: return "A log entry is above 999, or the log has over 4,096 entries.";
    case BELLGANTLET_CHARGES_MALFORMED: return "The list of open charges has over 48 records, a part of one, a booking length outside 1 to 61, or a word not zero behind it.";
    default: return "The call is refused.";
    }
}

/* What enter answers: on 12 the lowest rule that shares a booking and the booking's length, else 0 and 0. */
typedef struct {
    uint16_t number;
    uint16_t rule;
    size_t length;
} bellgantlet_entered;

/* What compile answers: the tree's length in words, 0 on a refusal. */
typedef struct {
    uint16_t number;
    size_t length;
} bellgantlet_tree;

/* What gap answers: the length of the booking that is shown, 0 where there is none and on a refusal. */
typedef struct {
    uint16_t number;
    size_t length;
} bellgantlet_shown;

/* What run and decide answer. Where no rule takes the booking, the rule is 0, the plan is the default plan, and all places are
 * unbound; a plan may be any number, so that rule 0 alone says it. On a refusal the places are 0. */
typedef struct {
    uint16_t number;
    uint16_t rule;
    uint16_t plan;
    uint16_t places[BELLGANTLET_VARIABLES];
} bellgantlet_answer;

/* What part answers: where in the booking the part begins and its words; 0 and 0 on a refusal. */
typedef struct {
    uint16_t number;
    size_t start;
    size_t length;
} bellgantlet_part_at;

/* What tally answers: how often each rule stands in the log, by its number, the default as rule 0; and how many entries there
 * are, which is the sum of the counts. On a refusal all are 0. */
typedef struct {
    uint16_t number;
    uint16_t total;
    uint16_t counts[BELLGANTLET_RULE_NUMBERS];
} bellgantlet_tallied;

/* What replan answers: of how many open charges the plan changed, 0 on a refusal. */
typedef struct {
    uint16_t number;
    uint16_t changed;
} bellgantlet_replanned;

/* What a check of a booking keeps between two of its words, by index:
 *   0           the number: 0, or 1 or 13 once it is certain
 *   1           how many words were read
 *   2           how many words of open values there are
 *   3 to 66     for each of 32 kinds its first head and the count of its heads, 0 and 0 where there is none
 *   67 to 322   for each of 256 constructors the index in the signature at which its row begins, 0 where there is none
 *   323 to 834  the open values, at the end, the innermost in front: the index in the signature of the kind of the next
 *               argument; 256 times the number of arguments still due, plus how deep each may be nested */
typedef struct {
    uint16_t words[BELLGANTLET_CHECK_WORDS];
} bellgantlet_check;

/* Makes a table without rules and with default plan 1: the second word becomes 1, all others of 4,290 become 0, those
 * behind stay. Refusals: 2. */
uint16_t bellgantlet_empty(uint16_t *table, size_t table_words);

/* Enters a rule. On 12 a booking that both rules take stands first in the witness buffer, whose rest stays; on every
 * refusal the table stays. Refusals: 1, 2, 3, 4, 5, 7, 18, 8, 9, 10, 11, 12. */
bellgantlet_entered bellgantlet_enter(
    const uint16_t *signature, size_t signature_words,
    uint16_t number, uint16_t plan,
    const uint16_t *pattern, size_t pattern_words,
    uint16_t *table, size_t table_words,
    uint16_t *witness, size_t witness_words);

/* Withdraws a rule; its space is free again. Refusals: 1, 2, 3, 4, 6. */
uint16_t bellgantlet_withdraw(
    const uint16_t *signature, size_t signature_words,
    uint16_t number,
    uint16_t *table, size_t table_words);

/* Sets the default plan, any number: the second word of the table becomes it, all others stay. Trees compiled before keep
 * theirs. Refusals: 1, 2, 3. */
uint16_t bellgantlet_set_default(
    const uint16_t *signature, size_t signature_words,
    uint16_t plan,
    uint16_t *table, size_t table_words);

/* Writes the tree of the rules in force and of the default plan from index 0 of the space, whose other words stay. A
 * leaf without a rule has the words 0 and that plan. Refusals: 1, 2, 3, 14. */
bellgantlet_tree bellgantlet_compile(
    const uint16_t *signature, size_t signature_words,
    const uint16_t *table, size_t table_words,
    uint16_t *space, size_t space_words);

/* Answers a booking directly from the table, with the default plan that stands in it. Refusals: 1, 2, 3, 13. */
bellgantlet_answer bellgantlet_decide(
    const uint16_t *signature, size_t signature_words,
    const uint16_t *table, size_t table_words,
    const uint16_t *booking, size_t booking_words);

/* Shows a gap: a lawful booking that no rule takes, which goes to the default. It stands first in the witness buffer, whose
 * rest stays; which one it is, where there are several, is open. Where rules take every lawful booking, the length is 0 and
 * nothing is written. No tree is made, so that a table which compile refuses with 14 is answered too. Refusals: 1, 2, 3. */
bellgantlet_shown bellgantlet_gap(
    const uint16_t *signature, size_t signature_words,
    const uint16_t *table, size_t table_words,
    uint16_t *witness, size_t witness_words);

/* Answers a booking over a tree, by the rules and with the default plan that it was compiled from, whatever the table says
 * now. The slice may be longer than the tree. Refusals: 1, 13, 15. */
bellgantlet_answer bellgantlet_run(
    const uint16_t *signature, size_t signature_words,
    const uint16_t *tree, size_t tree_words,
    const uint16_t *booking, size_t booking_words);

/* The part of a booking that begins at a place. Refusals: 1, 13, 16. */
bellgantlet_part_at bellgantlet_part(
    const uint16_t *signature, size_t signature_words,
    const uint16_t *booking, size_t booking_words,
    size_t place);

/* Begins the check of a booking whose words arrive one by one. Every word of the check is written, its old words do not
 * matter. Refusals: 1; then every step and the end are refused with it. */
uint16_t bellgantlet_check_begin(
    const uint16_t *signature, size_t signature_words,
    bellgantlet_check *check);

/* Takes the next word of the booking, under the signature that the check was begun with. A refusal is final: no later word
 * can mend it, every later step gives it again, and in the check nothing but its number changes; how many words were read
 * is then the place of the word that may not stand there. A check that was not begun, or begun with another signature, is
 * stepped as its words say, and does no harm. Refusals: 1, 13. */
uint16_t bellgantlet_check_step(
    const uint16_t *signature, size_t signature_words,
    bellgantlet_check *check,
    uint16_t word);

/* The number of the words read so far, as part and run give it: also 13 where values are still due, and where no word was
 * read. It may be asked after any step. Refusals: 1, 13. */
uint16_t bellgantlet_check_end(const bellgantlet_check *check);

/* Counts how often each rule stands in a log, such as that of a day: an entry is the rule of an answer, 0 where no rule took the
 * booking. The log may be empty, and its rules need not be held anywhere: no table is read. Refusals: 19. */
bellgantlet_tallied bellgantlet_tally(const uint16_t *log, size_t log_length);

/* Answers the bookings of all open charges again, over a new tree: rule and plan of each record become those that run gives for
 * its booking, 0 and the tree's default plan where no rule takes it, and every other word stays. A record has 64 words: rule,
 * plan, the booking's length from 1 to 61, the booking, zeros. What stood for rule and plan before does not matter; a charge
 * whose rule changes and whose plan does not is written and not counted. The list may be empty. On a refusal every word stays.
 * Refusals: 1; 20 where the list has over 48 records, a part of one, or a record of another form; then record by record 13 and
 * 15, so that 15 of one comes before 13 of the next. */
bellgantlet_replanned bellgantlet_replan(
    const uint16_t *signature, size_t signature_words,
    const uint16_t *tree, size_t tree_words,
    uint16_t *charges, size_t charges_words);

#ifdef __cplusplus
}
#endif

#endif
