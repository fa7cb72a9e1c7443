/*
 * Records, strings and calls, without end: statements as Dhrystone mixes them, in a program of its own.
 *
 * A round takes the orders of a small shop. The name of an article is copied, and looked for in a list of records by comparing
 * strings; then its stock, a table of days, and a table of articles and days are brought up to date. Nearly each step is a call.
 */
#include "rounds.h"

#define ARTICLES 8
#define DAYS 30
#define LENGTH 32
#define ORDERS 1300

#define APART static __attribute__((noinline))

enum kind { PIECE, PAIR, DOZEN, GROSS };

struct article {
    struct article *next;
    enum kind kind;
    unsigned price, stock;
    char name[LENGTH];
};

static const char names[ARTICLES][LENGTH] = {
    "SCREW OF BRASS, A LONG ONE",
    "SCREW OF BRASS, A SHORT ONE",
    "SCREW OF STEEL, WITH A FLAT TOP",
    "SCREWDRIVER FOR ALL OF THESE",
    "NAIL FOR ROOFS, ZINC-COATED",
    "NAIL FOR BOARDS AND FRAMES",
    "HINGE OF BRASS, FOR A CHEST",
    "HINGE OF IRON, FOR A GATE",
};

static struct article articles[ARTICLES], *first, last_sold;
static unsigned takings[DAYS], sold[ARTICLES][DAYS], refused;

APART char *copy_text(char *to, const char *from)
{
    char *start = to;
    while ((*to = *from) != 0) {
        to++;
        from++;
    }
    return start;
}

APART int compare_texts(const char *left, const char *right)
{
    while (*left != 0 && *left == *right) {
        left++;
        right++;
    }
    return *left - *right;
}

APART struct article *find(const char *name)
{
    struct article *article = first;
    while (article != 0 && compare_texts(article->name, name) != 0)
        article = article->next;
    return article;
}

APART unsigned pieces_of(enum kind kind)
{
    switch (kind) {
    case PIECE: return 1;
    case PAIR: return 2;
    case DOZEN: return 12;
    default: return 144;
    }
}

APART void add_to(unsigned *sum, unsigned value)
{
    *sum += value;
}

APART int has_room(const struct article *article, unsigned pieces)
{
    return article->stock >= pieces;
}

APART void note(unsigned (*row)[DAYS], unsigned day, unsigned count)
{
    (*row)[day] += count;
    (*row)[(day + 1) % DAYS] ^= count;
    (*row)[day / 2]++;
}

APART void remember(const struct article *article)
{
    last_sold.next = article->next;
    last_sold.kind = article->kind;
    last_sold.price = article->price;
    last_sold.stock = article->stock;
    copy_text(last_sold.name, article->name);
}

APART void sell(struct article *article, unsigned count, unsigned day)
{
    unsigned pieces = count * pieces_of(article->kind);
    if (!has_room(article, pieces)) {
        add_to(&refused, 1);
        add_to(&article->stock, 7 * pieces);
    }
    article->stock -= pieces;
    note(&sold[article - articles], day, count);
    add_to(&takings[day], pieces * article->price / 100);
    remember(article);
}

static void stock_shop(void)
{
    for (unsigned number = 0; number < ARTICLES; number++) {
        struct article *article = &articles[number];
        copy_text(article->name, names[number]);
        article->kind = (enum kind)(number % 4);
        article->price = 125 + 340 * number;
        article->stock = 1000;
        article->next = first;
        first = article;
    }
}

static unsigned work(void)
{
    char name[LENGTH];
    if (first == 0)
        stock_shop();
    for (unsigned order = 0; order < ORDERS; order++) {
        unsigned word = next_word();
        struct article *article = find(copy_text(name, names[word % ARTICLES]));
        sell(article, 1 + (word >> 8) % 9, (word >> 16) % DAYS);
    }
    return takings[DAYS / 2] + sold[1][1] + refused + last_sold.stock;
}
