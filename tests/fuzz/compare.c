#define _DEFAULT_SOURCE /* mmap */
#include "compare.h"

#include <stdlib.h>
#include <string.h>
#include <sys/mman.h>
#include <unistd.h>

/* Memory that ends: between two pages that can't be touched. */
struct room {
    uint8_t *front, *end;
};

static struct room make_room(void)
{
    size_t page = (size_t)sysconf(_SC_PAGESIZE), size = (MOST_BYTES + page - 1) / page * page;
    uint8_t *map = mmap(NULL, size + 2 * page, PROT_NONE, MAP_PRIVATE | MAP_ANONYMOUS, -1, 0);
    if (map == MAP_FAILED || mprotect(map + page, size, PROT_READ | PROT_WRITE) != 0) {
        perror("mmap");
        exit(1);
    }
    return (struct room){map + page, map + page + size};
}

struct bytes lend(const struct draft *draft, int buffer, bool behind)
{
    static struct room rooms[BUFFERS];
    struct room *room = &rooms[buffer];
    if (room->front == NULL)
        *room = make_room();
    if (draft->size == 0)
        return (struct bytes){behind ? room->end : NULL, 0};
    struct bytes lent = {behind ? room->end - draft->size : room->front, draft->size};
    memcpy(lent.at, draft->bytes, draft->size);
    return lent;
}

static struct bytes copy(const struct draft *draft, int buffer)
{
    static struct draft copies[BUFFERS];
    memcpy(copies[buffer].bytes, draft->bytes, draft->size);
    return (struct bytes){copies[buffer].bytes, draft->size};
}

/* Comparisons */

static bool same_answer(struct signon_answer ours, struct signon_answer plain)
{
    if (ours.number == plain.number && ours.buffer == plain.buffer && ours.place == plain.place)
        return true;
    fprintf(stderr, "the answer is %d %d %llu, and %d %d %llu by plain C\n", ours.number, ours.buffer, (unsigned long long)ours.place, plain.number,
            plain.buffer, (unsigned long long)plain.place);
    return false;
}

static bool same_bytes(int buffer, struct bytes ours, const uint8_t *wanted, const char *why)
{
    if (ours.size == 0 || memcmp(ours.at, wanted, ours.size) == 0)
        return true;
    size_t i = 0;
    while (ours.at[i] == wanted[i])
        i++;
    fprintf(stderr, "byte %zu of buffer %d is %d, and %d %s\n", i, buffer, ours.at[i], wanted[i], why);
    return false;
}

static bool may_answer(int call, int number)
{
    if (number == SIGNON_DONE || (number < REFUSALS && is_in(TRAITS[call].refusals, number)))
        return true;
    fprintf(stderr, "document 01 gives this call no refusal %d\n", number);
    return false;
}

static unsigned long long counts[CALLS][REFUSALS];

bool same_by_both(const struct drafts *drafts)
{
    const struct trait *trait = &TRAITS[drafts->call];
    struct lent ours = {drafts->call, {drafts->numbers[0], drafts->numbers[1]}, {{NULL, 0}}}, plain = ours;
    for (int i = 0; i < BUFFERS; i++)
        if (is_in(trait->lent, i)) {
            ours.buffers[i] = lend(&drafts->buffers[i], i, is_in(drafts->behind, i));
            plain.buffers[i] = copy(&drafts->buffers[i], i);
        }
    struct signon_answer answer = play_proved(&ours);
    bool same = same_answer(answer, play_plain(&plain)) && may_answer(drafts->call, answer.number);
    for (int i = 0; i < BUFFERS && same; i++) {
        same = same_bytes(i, ours.buffers[i], plain.buffers[i].at, "by plain C");
        if (same && (refused(answer) || !is_in(trait->written, i)))
            same = same_bytes(i, ours.buffers[i], drafts->buffers[i].bytes, "as it was lent");
    }
    if (same)
        counts[drafts->call][answer.number]++;
    return same;
}

/* What is said of it */

void tell_call(FILE *to, const struct drafts *drafts)
{
    const struct trait *trait = &TRAITS[drafts->call];
    fprintf(to, "%s", trait->name);
    for (int i = 0; i < trait->numbers; i++)
        fprintf(to, ", %zu", drafts->numbers[i]);
    for (int i = 0; i < BUFFERS; i++)
        if (is_in(trait->lent, i))
            fprintf(to, ", buffer %d of %zu bytes", i, drafts->buffers[i].size);
    fprintf(to, "\n");
}

static void tell_line(FILE *to, const char *name, const unsigned long long times[REFUSALS])
{
    fprintf(to, "%s: done %llu", name, times[SIGNON_DONE]);
    for (int number = SIGNON_SHORT; number < REFUSALS; number++)
        if (times[number] != 0)
            fprintf(to, ", refused by %d %llu", number, times[number]);
    fprintf(to, "\n");
}

void tell_counts(FILE *to, const int calls[], size_t count)
{
    unsigned long long all[REFUSALS] = {0}, made = 0;
    for (size_t i = 0; i < count; i++) {
        tell_line(to, TRAITS[calls[i]].name, counts[calls[i]]);
        for (int number = 0; number < REFUSALS; number++) {
            all[number] += counts[calls[i]][number];
            made += counts[calls[i]][number];
        }
    }
    char name[40];
    snprintf(name, sizeof name, "%llu calls", made);
    tell_line(to, name, all);
}

bool all_reached(int call)
{
    bool all = true;
    for (int number = 0; number < REFUSALS; number++)
        if ((number == SIGNON_DONE || is_in(TRAITS[call].refusals, number)) && counts[call][number] == 0) {
            fprintf(stderr, number == SIGNON_DONE ? "%s was never done\n" : "%s was never refused by %d\n", TRAITS[call].name, number);
            all = false;
        }
    return all;
}
