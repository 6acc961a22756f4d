/* Edits of what is lent. */
#include "recipes.h"

#include <string.h>

enum { MOST_AT_ONCE = 300, HEADING = 6 };

/* What an edit does. Those up to COPY change bytes where they lie, which is all that is done to a record: it has 68 of them. */
enum {
    SET,
    SET_IN_HEADING,
    SET_LAST,
    EXCHANGE_NEIGHBOURS,
    EXCHANGE_LAST,
    EXCHANGE_BYTES,
    COPY,
    RESIZE,
    RESIZE_AND_COUNT,
    COUNT_ANEW,
    CHANGE_NUMBER,
    TAKE_FROM_ANOTHER,
    EXCHANGE_BUFFERS,
    REPLACE
};

/* Each as often as it comes. */
static const int EDITS[] = {SET, SET, SET, SET_IN_HEADING, SET_IN_HEADING, SET_LAST, SET_LAST, EXCHANGE_NEIGHBOURS, EXCHANGE_LAST, EXCHANGE_BYTES, COPY,
                            RESIZE, RESIZE_AND_COUNT, COUNT_ANEW, CHANGE_NUMBER, CHANGE_NUMBER, TAKE_FROM_ANOTHER, EXCHANGE_BUFFERS, REPLACE};

/* An edit as it stands in a recipe. */
struct edit {
    int what, buffer;
    size_t place;
    uint8_t how, value;
};

/* The k-th buffer of a set, counted round and round. */
static int member(unsigned set, unsigned k)
{
    int members[BUFFERS];
    unsigned count = 0;
    for (int i = 0; i < BUFFERS; i++)
        if (is_in(set, i))
            members[count++] = i;
    return members[k % count];
}

/* Bytes where they lie */

/* A value at a limit of some sort, one beside the old, the old with one bit changed, or any. */
static uint8_t new_byte(uint8_t old, uint8_t how, uint8_t value)
{
    static const uint8_t limits[] = {0, 1, 3, 65, 250, 251, 255};
    enum { LIMITS = sizeof limits, BELOW = LIMITS, ABOVE, FLIPPED, ANY_VALUE, WAYS };
    switch (how % WAYS) {
    case BELOW: return (uint8_t)(old - 1);
    case ABOVE: return (uint8_t)(old + 1);
    case FLIPPED: return old ^ (uint8_t)(1 << value % 8);
    case ANY_VALUE: return value;
    default: return limits[how % WAYS];
    }
}

static void exchange_bytes(uint8_t *a, uint8_t *b)
{
    uint8_t kept = *a;
    *a = *b;
    *b = kept;
}

static void edit_byte(struct draft *draft, const struct edit *e)
{
    size_t size = draft->size;
    if (size == 0)
        return;
    if (e->what == SET_IN_HEADING && size > HEADING)
        size = HEADING;
    bool last = e->what == SET_LAST || e->what == EXCHANGE_LAST;
    size_t place = last ? size - 1 : e->place % size, before = (place + size - 1) % size, other = (place + (size_t)e->how * 256 + e->value) % size;
    uint8_t *bytes = draft->bytes;
    switch (e->what) {
    case EXCHANGE_NEIGHBOURS:
    case EXCHANGE_LAST: exchange_bytes(bytes + place, bytes + before); break;
    case EXCHANGE_BYTES: exchange_bytes(bytes + place, bytes + other); break;
    case COPY: bytes[place] = bytes[other]; break;
    default: bytes[place] = new_byte(bytes[place], e->how, e->value);
    }
}

/* Sizes */

static void set_size(struct draft *draft, size_t size, uint8_t filling)
{
    if (size > MOST_BYTES)
        size = MOST_BYTES;
    if (size > draft->size)
        memset(draft->bytes + draft->size, filling, size - draft->size);
    draft->size = size;
}

static void resize(struct draft *draft, const struct edit *e)
{
    size_t size = draft->size;
    switch (e->how % 6) {
    case 0: set_size(draft, size - (size > 0), 0); break;
    case 1: set_size(draft, size + 1, e->value); break;
    case 2: set_size(draft, size + 7, e->value); break;
    case 3: set_size(draft, size + e->place % MOST_AT_ONCE, e->value); break;
    default: set_size(draft, e->place % (size + 1), 0);
    }
}

static void count_anew(struct draft *draft)
{
    if (draft->size < 2)
        return;
    draft->bytes[0] = (uint8_t)((draft->size - 2) >> 8);
    draft->bytes[1] = (uint8_t)(draft->size - 2);
}

/* Numbers and whole buffers */

static void change_number(struct drafts *drafts, const struct edit *e)
{
    static const size_t limits[] = {0, 1, 2, 19, 20, 30, 31, 63, 64, 65, 250, 251, 255, 256, 257, (size_t)1 << 32, SIZE_MAX};
    size_t *number = &drafts->numbers[e->place % (size_t)TRAITS[drafts->call].numbers];
    switch (e->how % 5) {
    case 0: *number -= 1; break;
    case 1: *number += 1; break;
    case 2: *number = drafts->sizes.rounds; break;
    case 3: *number += (size_t)1 << (e->value % 2 ? 8 : 32); break;
    default: *number = limits[e->value % (sizeof limits / sizeof *limits)];
    }
}

static void copy_draft(struct draft *to, const struct draft *from)
{
    to->size = from->size;
    memcpy(to->bytes, from->bytes, from->size);
}

/* The buffer of the same call in another sign-on, of the same sizes or of others. */
static void take_from_another(struct drafts *drafts, const struct edit *e)
{
    static struct drafts other;
    struct random random = {e->place};
    uint8_t bytes[HEAD_BYTES];
    make_bytes(&random, sizeof bytes, bytes);
    struct recipe recipe = {bytes, sizeof bytes};
    other.call = drafts->call;
    other.sizes = e->how % 2 ? drafts->sizes : next_sizes(&recipe, drafts->call);
    make_honest(&random, &other);
    copy_draft(&drafts->buffers[e->buffer], &other.buffers[e->buffer]);
}

static void exchange_buffers(struct draft *a, struct draft *b)
{
    static struct draft kept;
    if (a == b)
        return;
    copy_draft(&kept, a);
    copy_draft(a, b);
    copy_draft(b, &kept);
}

static void replace(struct recipe *recipe, struct draft *draft, size_t size)
{
    draft->size = size;
    for (size_t i = 0; i < size; i++)
        draft->bytes[i] = next_byte(recipe);
}

/* What can't be done, to a record or for want of a number, is done to the heading instead. */
static struct edit next_edit(struct recipe *recipe, const struct trait *trait)
{
    struct edit e = {0};
    e.what = EDITS[next_byte(recipe) % (sizeof EDITS / sizeof *EDITS)];
    e.buffer = member(trait->lent, next_byte(recipe));
    e.place = next_pair(recipe);
    e.how = next_byte(recipe);
    e.value = next_byte(recipe);
    if (e.what == CHANGE_NUMBER ? trait->numbers == 0 : e.buffer == RECORD && e.what > COPY)
        e.what = SET_IN_HEADING;
    return e;
}

void edit(struct recipe *recipe, struct drafts *drafts)
{
    const struct trait *trait = &TRAITS[drafts->call];
    struct edit e = next_edit(recipe, trait);
    struct draft *draft = &drafts->buffers[e.buffer];
    unsigned but_record = trait->lent & ~(1u << RECORD);
    switch (e.what) {
    case RESIZE: resize(draft, &e); break;
    case RESIZE_AND_COUNT:
        resize(draft, &e);
        count_anew(draft);
        break;
    case COUNT_ANEW: count_anew(draft); break;
    case CHANGE_NUMBER: change_number(drafts, &e); break;
    case TAKE_FROM_ANOTHER: take_from_another(drafts, &e); break;
    case EXCHANGE_BUFFERS: exchange_buffers(draft, &drafts->buffers[member(but_record, e.value)]); break;
    case REPLACE: replace(recipe, draft, e.place % MOST_AT_ONCE); break;
    default: edit_byte(draft, &e);
    }
}
