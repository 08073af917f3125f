/* Compares Snellair with the peer on generated cases: packed answers and all
 * bytes lent. Takes a seed and a number of cases; ends with status 1 at the
 * first difference, or if the cases say too little. */
#include "answer.h"
#include "generate.h"
#include "opening.h"
#include "peer.h"
#include "snellair.h"
#include "tally.h"

#include <inttypes.h>
#include <stdio.h>
#include <stdlib.h>
#include <string.h>

enum {
    MARGIN = 64,
    ROOM = MOST_SHEET_BYTES + MOST_ADDED + 2 * MARGIN,
    AREA_ROOM = MOST_AREA + 2 * MARGIN,
    ROW_ROOM = MOST_ROW + 2 * MARGIN
};

/* What is written, a sheet, an area or a row, stands between margins that
 * nobody may write. */
struct one_case {
    uint64_t seed, number;
    uint64_t answer; /* the last that work out gave */
    struct draft draft;
    size_t graph_len, sheet_len;
    uint8_t graph[MOST_GRAPH_BYTES + MOST_ADDED];
    uint8_t graph_before[MOST_GRAPH_BYTES + MOST_ADDED];
    uint8_t ours[ROOM], theirs[ROOM], plain[ROOM];
    uint8_t area[AREA_ROOM], our_area[AREA_ROOM], their_area[AREA_ROOM];
    uint8_t sheets[MOST_SHEETS_BYTES], sheets_before[MOST_SHEETS_BYTES];
    uint32_t our_row[ROW_ROOM], their_row[ROW_ROOM];
};

/* What came of each comparison. */
struct tallies {
    struct tally wrong_length, work_out, check, one_shot, session, fitting;
    struct tally damaged, lines, opening, queued, queued_damaged;
    struct openings openings;
    struct many_tally many;
};

/* Both sides are lent the same bytes. */
static void lend(struct one_case *c, size_t sheet_len)
{
    c->sheet_len = sheet_len;
    memcpy(c->theirs, c->ours, sheet_len + 2 * MARGIN);
}

static void print_case(const struct one_case *c, const char *operation)
{
    printf("seed %" PRIu64 " case %" PRIu64 ", %s: ", c->seed, c->number,
           operation);
}

static bool blame(const struct one_case *c, const char *operation,
                  const char *what)
{
    print_case(c, operation);
    printf("%s\n", what);
    return false;
}

static void print_answer(const char *whose, uint64_t answer)
{
    printf("%s %u, type %u, at %u, line %u", whose, number_in(answer),
           type_in(answer), place_in(answer), line_in(answer));
}

static void print_difference(const struct one_case *c, const char *operation,
                             uint64_t ours, uint64_t theirs)
{
    print_case(c, operation);
    print_answer("snellair", theirs);
    print_answer("; peer", ours);
    printf("\n");
    for (size_t i = 0; i < c->sheet_len + 2 * MARGIN; i++)
        if (c->ours[i] != c->theirs[i]) {
            printf("first byte that differs, from the sheet's start: %ld\n",
                   (long)i - MARGIN);
            return;
        }
}

/* Whether answers, sheets with margins, and the graph are as they should. */
static bool agree(const struct one_case *c, const char *operation,
                  uint64_t ours, uint64_t theirs)
{
    if (ours == theirs
        && memcmp(c->ours, c->theirs, c->sheet_len + 2 * MARGIN) == 0
        && memcmp(c->graph, c->graph_before, c->graph_len) == 0)
        return true;
    print_difference(c, operation, ours, theirs);
    return false;
}

static bool compare_work_out(struct one_case *c, size_t sheet_len,
                             struct tally *tally)
{
    lend(c, sheet_len);
    uint64_t ours = peer_work_out(c->graph, c->graph_len, c->ours + MARGIN,
                                  sheet_len);
    uint64_t theirs = snellair_work_out(c->graph, c->graph_len,
                                        c->theirs + MARGIN, sheet_len);
    c->answer = ours;
    tally_note(tally, ours);
    return agree(c, "work out", ours, theirs);
}

/* All are lent the same sheet, and the two with a queue the same area. */
static void lend_queued(struct random *r, struct one_case *c, size_t sheet_len)
{
    random_fill(r, c->ours, sheet_len + 2 * MARGIN);
    lend(c, sheet_len);
    memcpy(c->plain, c->ours, sheet_len + 2 * MARGIN);
    generate_area(r, c->area, AREA_ROOM);
    memcpy(c->our_area, c->area, AREA_ROOM);
    memcpy(c->their_area, c->area, AREA_ROOM);
}

/* Whether Snellair's sheet is as it was lent or, when plain work out has been
 * asked, as that leaves it. */
static bool same_as_plain(const struct one_case *c)
{
    return memcmp(c->plain, c->theirs, c->sheet_len + 2 * MARGIN) == 0;
}

/* What is wrong with what Snellair's queue left, or NULL: a refusal leaves
 * sheet and area, a verdict the plain engine's sheet and zeros. */
static const char *queued_fault(struct one_case *c, size_t area_len,
                                uint64_t answer)
{
    if (is_verdict(answer))
        memset(c->area + MARGIN, 0, area_len);
    else if (!same_as_plain(c))
        return "a refusal that writes the sheet";
    if (memcmp(c->area, c->their_area, AREA_ROOM) != 0)
        return "an area that is not as it was, or not zeros after a verdict";
    if (number_in(answer) == 23)
        return NULL;
    if (snellair_work_out(c->graph, c->graph_len, c->plain + MARGIN,
                          c->sheet_len) != answer)
        return "the plain engine answers otherwise";
    return same_as_plain(c) ? NULL : "the plain engine has another sheet";
}

/* Which lengths are wrong. */
enum { WRONG_SHEET = 1, WRONG_AREA = 2, WRONGS = 4 };

static bool compare_queued(struct random *r, struct one_case *c,
                           unsigned wrong, struct tally *tally)
{
    static const char name[] = "work out with a queue";
    size_t sheet_len = sheet_bytes(draft_shape(&c->draft));
    if (wrong & WRONG_SHEET)
        sheet_len = generate_wrong_length(r, sheet_len);
    size_t area_len = wrong & WRONG_AREA ? generate_wrong_area(r) : AREA_BYTES;
    bool any = area_len > 0;
    lend_queued(r, c, sheet_len);
    uint64_t ours = peer_work_out_queued(
        c->graph, c->graph_len, c->ours + MARGIN, sheet_len,
        any ? c->our_area + MARGIN : NULL, area_len);
    uint64_t theirs = snellair_work_out_queued(
        c->graph, c->graph_len, c->theirs + MARGIN, sheet_len,
        any ? c->their_area + MARGIN : NULL, area_len);
    tally_note(tally, ours);
    if (!agree(c, name, ours, theirs))
        return false;
    if (memcmp(c->our_area, c->their_area, AREA_ROOM) != 0)
        return blame(c, name, "another area, or a margin written");
    const char *fault = queued_fault(c, area_len, theirs);
    return fault == NULL || blame(c, name, fault);
}

static bool compare_queues(struct random *r, struct one_case *c,
                           struct tally *tally)
{
    for (unsigned wrong = 0; wrong < WRONGS; wrong++)
        if (!compare_queued(r, c, wrong, tally))
            return false;
    return true;
}

static bool compare_check(struct one_case *c, size_t sheet_len,
                          struct tally *tally)
{
    lend(c, sheet_len);
    uint64_t ours = peer_check(c->graph, c->graph_len, c->ours + MARGIN,
                               sheet_len);
    uint64_t theirs = snellair_check(c->graph, c->graph_len,
                                     c->theirs + MARGIN, sheet_len);
    tally_note(tally, ours);
    return agree(c, "check", ours, theirs);
}

/* A row says what Snellair's own check does of each sheet alone. */
static bool compare_alone(const struct one_case *c, struct lengths lent,
                          struct many_tally *tally)
{
    const uint32_t *row = c->their_row + MARGIN;
    size_t one = 2 * lent.sheets / lent.row;
    for (size_t i = 0; i < lent.row / 2; i++) {
        uint64_t alone = snellair_check(c->graph, c->graph_len,
                                        c->sheets + i * one, one);
        tally_note(&tally->sheets, alone);
        if (!row_says(row, i, alone))
            return blame(c, "check many", "not as for the sheet alone");
    }
    many_tally_note_row(tally, row, lent.row);
    return true;
}

static bool compare_check_many(struct random *r, struct one_case *c,
                               struct lengths lent, struct many_tally *tally)
{
    const uint8_t *sheets = lent.sheets > 0 ? c->sheets : NULL;
    random_fill(r, (uint8_t *)c->our_row, sizeof c->our_row);
    memcpy(c->their_row, c->our_row, sizeof c->our_row);
    uint64_t ours = peer_check_many(c->graph, c->graph_len, sheets, lent.sheets,
                                    c->our_row + MARGIN, lent.row);
    uint64_t theirs =
        snellair_check_many(c->graph, c->graph_len, sheets, lent.sheets,
                            c->their_row + MARGIN, lent.row);
    tally_note(&tally->calls, ours);
    if (!agree(c, "check many", ours, theirs))
        return false;
    if (memcmp(c->our_row, c->their_row, sizeof c->our_row) != 0)
        return blame(c, "check many", "another row, or a margin written");
    if (memcmp(c->sheets, c->sheets_before, lent.sheets) != 0)
        return blame(c, "check many", "a sheet written");
    return ours != 0 || compare_alone(c, lent, tally);
}

/* A graph that fits one-shot passes. */
static bool compare_pass(struct one_case *c, struct tally *tally)
{
    if (!compare_work_out(c, sheet_bytes(shape_of(c->graph, c->graph_len)),
                          tally))
        return false;
    if (tally->times[0] == tally_all(tally))
        return true;
    return blame(c, "fits one-shot", "it does not pass");
}

static bool compare_profiles(struct one_case *c, struct tallies *tallies)
{
    uint64_t one_shot = peer_one_shot(c->graph, c->graph_len);
    uint64_t session = peer_session(c->graph, c->graph_len);
    tally_note(&tallies->one_shot, one_shot);
    tally_note(&tallies->session, session);
    if (!agree(c, "one-shot", one_shot,
               snellair_one_shot(c->graph, c->graph_len))
        || !agree(c, "session", session,
                  snellair_session(c->graph, c->graph_len)))
        return false;
    return one_shot != 0 || compare_pass(c, &tallies->fitting);
}

/* One graph in 64 of limit size. */
static void make_draft(struct random *r, struct one_case *c)
{
    static const struct sizes small = {6, 30, 6, 255, 255};
    if (random_below(r, 64) == 0)
        generate_limit_graph(r, &c->draft);
    else
        generate_graph(r, &small, &c->draft);
}

static void write_graph(struct one_case *c)
{
    c->graph_len = draft_write(&c->draft, c->graph);
    memcpy(c->graph_before, c->graph, c->graph_len);
}

static void damage_graph(struct random *r, struct one_case *c)
{
    c->graph_len = generate_damage(r, &c->draft, c->graph, c->graph_len);
    memcpy(c->graph_before, c->graph, c->graph_len);
}

/* One file in 4 is damaged. */
static void make_graph(struct random *r, struct one_case *c)
{
    make_draft(r, c);
    write_graph(c);
    if (random_below(r, 4) == 0)
        damage_graph(r, c);
}

/* Worked out for another opening stock, so the sheet may obey and be too low,
 * or break rule 1. */
static void work_out_for_other_opening(struct random *r, struct one_case *c)
{
    struct draft other = c->draft;
    uint8_t graph[MOST_GRAPH_BYTES];
    unsigned type = random_below(r, other.types);
    other.opening_count[type] = (uint16_t)random_below(r, 256);
    other.opening_rights[type] &= (uint16_t)random_below(r, 0x10000);
    size_t length = draft_write(&other, graph);
    peer_work_out(graph, length, c->ours + MARGIN,
                  sheet_bytes(draft_shape(&other)));
}

/* Each number of sheets in turn, and then wrong lengths. */
static bool compare_many(struct random *r, struct one_case *c,
                         const uint8_t *given, struct many_tally *tally)
{
    unsigned count = 1 + (unsigned)(c->number % MOST_SHEETS);
    struct lengths lent =
        generate_sheets(r, count, &c->draft, given, c->sheets);
    memcpy(c->sheets_before, c->sheets, lent.sheets);
    struct lengths wrong = generate_wrong_lengths(r, count, lent);
    return compare_check_many(r, c, lent, tally)
        && compare_check_many(r, c, wrong, tally);
}

/* Graphs that fit a profile, as they are and with one field changed. */
static bool compare_fitting(struct random *r, struct one_case *c,
                            struct tallies *tallies)
{
    for (unsigned i = 0; i < 4; i++) {
        if (i % 2 != 0) {
            generate_profile_change(r, &c->draft);
        } else {
            make_draft(r, c);
            (i == 0 ? generate_one_shot : generate_session)(r, &c->draft);
        }
        write_graph(c);
        if (!compare_profiles(c, tallies))
            return false;
    }
    return true;
}

/* The last graph's file, damaged in a few ways. */
static bool compare_damaged(struct random *r, struct one_case *c,
                            struct tallies *tallies)
{
    for (unsigned i = 0; i < 4; i++) {
        write_graph(c);
        damage_graph(r, c);
        if (!compare_work_out(c, sheet_bytes(draft_shape(&c->draft)),
                              &tallies->damaged)
            || !compare_queued(r, c, i % WRONGS, &tallies->queued_damaged)
            || !compare_profiles(c, tallies))
            return false;
    }
    return true;
}

enum { ANSWERS = 5 };

/* All that Snellair says of a file and a sheet, which it works out anew. */
static void ask_snellair(const struct one_case *c, uint8_t *sheet,
                         uint64_t answer[ANSWERS])
{
    answer[0] = snellair_check(c->graph, c->graph_len, sheet, c->sheet_len);
    answer[1] = snellair_work_out(c->graph, c->graph_len, sheet, c->sheet_len);
    answer[2] = snellair_check(c->graph, c->graph_len, sheet, c->sheet_len);
    answer[3] = snellair_one_shot(c->graph, c->graph_len);
    answer[4] = snellair_session(c->graph, c->graph_len);
}

/* Two files that differ only in lines get the same but for the line. */
static bool compare_lines(struct random *r, struct one_case *c,
                          size_t sheet_len, struct tally *tally)
{
    uint64_t one[ANSWERS], other[ANSWERS];
    lend(c, sheet_len);
    ask_snellair(c, c->ours + MARGIN, one);
    tally_note(tally, one[1]);
    if (number_in(one[1]) >= 1 && number_in(one[1]) <= 3)
        return true;
    generate_lines(r, c->graph, c->graph_len);
    ask_snellair(c, c->theirs + MARGIN, other);
    memcpy(c->graph, c->graph_before, c->graph_len);
    for (unsigned i = 0; i < ANSWERS; i++)
        if (without_line(one[i]) != without_line(other[i]))
            return blame(c, "other lines", "another answer");
    if (memcmp(c->ours, c->theirs, sheet_len + 2 * MARGIN) != 0)
        return blame(c, "other lines", "another sheet");
    return true;
}

/* The same file with another opening stock, one change a case: work out takes
 * the longest here. What was worked out before is given. */
static bool compare_opening(struct random *r, struct one_case *c,
                            struct worked one, struct tallies *tallies)
{
    enum opening_change change = c->number % OPENING_CHANGES;
    if (!is_verdict(one.answer))
        return true;
    struct shape s = shape_of(c->graph, c->graph_len);
    unsigned type = generate_opening(r, change, c->graph, c->graph_len);
    memcpy(c->graph_before, c->graph, c->graph_len);
    if (!compare_work_out(c, sheet_bytes(s), &tallies->opening))
        return false;
    struct worked other = {c->answer, c->theirs + MARGIN};
    const char *fault =
        opening_fault(s, change, type, one, other, &tallies->openings);
    return fault == NULL || blame(c, "another opening stock", fault);
}

static bool compare_case(struct one_case *c, struct tallies *tallies)
{
    struct random r = random_of(c->seed, c->number);
    uint8_t worked[MOST_SHEET_BYTES];
    make_graph(&r, c);
    size_t right = sheet_bytes(draft_shape(&c->draft));
    random_fill(&r, c->ours, right + MOST_ADDED + 2 * MARGIN);
    if (!compare_work_out(c, generate_wrong_length(&r, right),
                          &tallies->wrong_length)
        || !compare_work_out(c, right, &tallies->work_out))
        return false;
    memcpy(worked, c->theirs + MARGIN, right);
    struct worked one = {c->answer, worked};
    for (unsigned i = 0; i < 2 * SHEET_KINDS; i++) {
        size_t length = generate_sheet(&r, i % SHEET_KINDS, &c->draft, worked,
                                       c->ours + MARGIN);
        if (!compare_check(c, length, &tallies->check))
            return false;
    }
    work_out_for_other_opening(&r, c);
    const uint8_t *given = random_below(&r, 2) ? worked : c->ours + MARGIN;
    return compare_check(c, right, &tallies->check)
        && compare_many(&r, c, given, &tallies->many)
        && compare_lines(&r, c, right, &tallies->lines)
        && compare_profiles(c, tallies)
        && compare_queues(&r, c, &tallies->queued)
        && compare_opening(&r, c, one, tallies)
        && compare_fitting(&r, c, tallies) && compare_damaged(&r, c, tallies);
}

static void print_tallies(const struct tallies *t)
{
    tally_print("work out, wrong length", &t->wrong_length);
    tally_print("work out", &t->work_out);
    tally_print("check", &t->check);
    tally_print("one-shot", &t->one_shot);
    tally_print("session", &t->session);
    tally_print("damaged files", &t->damaged);
    tally_print("work out where one-shot fits", &t->fitting);
    tally_print("other lines", &t->lines);
    tally_print("work out with another opening stock", &t->opening);
    openings_print(&t->openings);
    tally_print("work out with a queue", &t->queued);
    tally_print("the same on damaged files", &t->queued_damaged);
    many_tally_print(&t->many);
}

/* Whether verdicts, 23, 10 and refusals of the file all came often enough, the
 * last on damaged files. */
static bool queues_suffice(const struct tallies *t, uint64_t cases)
{
    const struct tally *damaged = &t->queued_damaged;
    unsigned long stayed = tally_verdicts(damaged) + damaged->times[10]
                         + damaged->times[23];
    return 2 * tally_verdicts(&t->queued) >= cases
        && 2 * t->queued.times[23] >= cases && t->queued.times[10] >= cases
        && tally_all(damaged) - stayed >= cases;
}

/* Why the cases say too little, or NULL. */
static const char *lack(const struct tallies *t, uint64_t cases)
{
    if (2 * tally_verdicts(&t->work_out) < cases)
        return "fewer than half of the graphs came to a verdict";
    if (!openings_suffice(&t->openings))
        return "too few opening stocks made a difference";
    if (!queues_suffice(t, cases))
        return "work out with a queue came to too few of its answers";
    if (!many_tally_suffices(&t->many))
        return "the rows of check many say too little";
    return NULL;
}

int main(int argc, char **argv)
{
    static struct one_case c;
    static struct tallies tallies;
    if (argc != 3) {
        fprintf(stderr, "usage: compare SEED CASES\n");
        return 2;
    }
    c.seed = strtoull(argv[1], NULL, 10);
    uint64_t cases = strtoull(argv[2], NULL, 10);
    for (c.number = 0; c.number < cases; c.number++)
        if (!compare_case(&c, &tallies)) {
            printf("%" PRIu64 " cases before it without a difference\n",
                   c.number);
            return 1;
        }
    print_tallies(&tallies);
    printf("%" PRIu64 " cases, no difference\n", cases);
    const char *lacks = lack(&tallies, cases);
    if (lacks != NULL)
        printf("%s\n", lacks);
    return lacks == NULL ? 0 : 1;
}
