#include "recipes.h"

uint8_t next_byte(struct recipe *recipe)
{
    if (recipe->left == 0)
        return 0;
    recipe->left--;
    return *recipe->at++;
}

size_t next_pair(struct recipe *recipe)
{
    size_t high = next_byte(recipe);
    return high << 8 | next_byte(recipe);
}

struct range {
    size_t least, most;
};

enum { RANGES = 4 };

static size_t next_in(struct recipe *recipe, const struct range ranges[RANGES])
{
    struct range range = ranges[next_byte(recipe) % RANGES];
    return range.least + next_byte(recipe) % (range.most - range.least + 1);
}

struct sizes next_sizes(struct recipe *recipe, int call)
{
    static const struct range places[RANGES] = {{2, 4}, {2, 9}, {2, 64}, {64, 64}};
    static const struct range rounds[RANGES] = {{1, 4}, {20, 40}, {1, 64}, {64, 64}}, judged[RANGES] = {{20, 40}, {31, 64}, {1, 64}, {64, 64}};
    size_t n = next_in(recipe, places);
    size_t m = 1 + next_byte(recipe) % (n - 1);
    return (struct sizes){n, m, next_in(recipe, call == VERDICT ? judged : rounds)};
}

void make_call(struct recipe *recipe, const int calls[], size_t count, struct drafts *drafts)
{
    drafts->call = calls[next_byte(recipe) % count];
    drafts->sizes = next_sizes(recipe, drafts->call);
    struct random random = {next_pair(recipe)};
    drafts->behind = (unsigned)next_pair(recipe);
    make_honest(&random, drafts);
    while (recipe->left > 0)
        edit(recipe, drafts);
}
