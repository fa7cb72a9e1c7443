/*
 * Lists, small matrices, a state machine and checksums, without end: work as CoreMark mixes it, in a program of its own.
 *
 * In each turn of a round a list is searched and reversed some times, and sorted by each of its two keys; two matrices of half
 * words are multiplied; a text is taken for numbers, each whole, with a point, with an exponent, or wrong; and what comes of it
 * goes into a checksum of 16 bits.
 */
#include "rounds.h"

#define NODES 64
#define SIDE 9
#define SEARCHES 16
#define TURNS 16

#define APART static __attribute__((noinline))

APART unsigned short checksum(unsigned short sum, unsigned value)
{
    for (int bit = 0; bit < 16; bit++) {
        unsigned differs = (sum ^ value) & 1;
        sum = (unsigned short)(sum >> 1);
        value >>= 1;
        if (differs)
            sum ^= 0xa001;
    }
    return sum;
}

struct node {
    struct node *next;
    short key, place;
};

typedef int key_of(const struct node *node);

static struct node nodes[NODES];

APART int by_key(const struct node *node)
{
    return node->key;
}

APART int by_place(const struct node *node)
{
    return node->place;
}

APART struct node *find(struct node *list, int place)
{
    while (list != 0 && list->place != place)
        list = list->next;
    return list;
}

APART struct node *reversed(struct node *list)
{
    struct node *done = 0;
    while (list != 0) {
        struct node *next = list->next;
        list->next = done;
        done = list;
        list = next;
    }
    return done;
}

APART struct node *merged(struct node *left, struct node *right, key_of *key)
{
    struct node *list = 0, **end = &list;
    while (left != 0 && right != 0) {
        struct node **least = key(left) <= key(right) ? &left : &right;
        *end = *least;
        end = &(*least)->next;
        *least = *end;
    }
    *end = left != 0 ? left : right;
    return list;
}

/* Takes a number of nodes off a list, one at least, and gives them sorted. */
APART struct node *sorted(struct node **list, int count, key_of *key)
{
    if (count == 1) {
        struct node *only = *list;
        *list = only->next;
        only->next = 0;
        return only;
    }
    struct node *left = sorted(list, count / 2, key);
    return merged(left, sorted(list, count - count / 2, key), key);
}

static unsigned short use_list(unsigned short sum)
{
    struct node *list = nodes;
    for (int i = 0; i < NODES; i++) {
        nodes[i].key = (short)(next_word() & 0xff);
        nodes[i].place = (short)i;
        nodes[i].next = i + 1 < NODES ? &nodes[i + 1] : 0;
    }
    for (int i = 0; i < SEARCHES; i++) {
        struct node *found = find(list, (int)(next_word() % NODES));
        if (found->next != 0)
            sum = checksum(sum, (unsigned)found->next->key);
        list = reversed(list);
    }
    list = sorted(&list, NODES, by_key);
    sum = checksum(sum, (unsigned)list->place);
    list = sorted(&list, NODES, by_place);
    return checksum(sum, (unsigned)list->key);
}

static short left[SIDE][SIDE], right[SIDE][SIDE];
static int product[SIDE][SIDE];

APART void fill_matrices(void)
{
    for (int i = 0; i < SIDE; i++)
        for (int k = 0; k < SIDE; k++) {
            unsigned word = next_word();
            left[i][k] = (short)(word & 0x3ff);
            right[i][k] = (short)(word >> 20 & 0x3ff);
        }
}

APART void multiply(void)
{
    for (int i = 0; i < SIDE; i++)
        for (int k = 0; k < SIDE; k++) {
            int sum = 0;
            for (int j = 0; j < SIDE; j++)
                sum += left[i][j] * right[j][k];
            product[i][k] = sum;
        }
}

/* The same with parts of the products only. */
APART void multiply_parts(void)
{
    for (int i = 0; i < SIDE; i++)
        for (int k = 0; k < SIDE; k++) {
            int sum = 0;
            for (int j = 0; j < SIDE; j++) {
                int term = left[i][j] * right[j][k];
                sum += (term >> 2 & 0xf) * (term >> 5 & 0x7f);
            }
            product[i][k] -= sum;
        }
}

static unsigned short use_matrices(unsigned short sum)
{
    int before = 0;
    unsigned rising = 0;
    fill_matrices();
    multiply();
    multiply_parts();
    for (int i = 0; i < SIDE; i++)
        for (int k = 0; k < SIDE; k++) {
            rising += product[i][k] > before;
            before = product[i][k];
        }
    return checksum(checksum(sum, rising), (unsigned)before);
}

enum state { START, SIGN, WHOLE, POINT, LETTER, LETTER_SIGN, EXPONENT, WRONG, STATES };

static const char text[] = "81,-4.25,+7e3,19400,.5,-62.75e-2,x17,3.3.3,+,0.0625,12e,99999,"
                           "-1,7E+12,4-4,+250.125,-.75e1,60,1e-9,seven,16384,";

/* How often each state was that of a number's end. */
static unsigned ends[STATES];

static int is_digit(char letter)
{
    return letter >= '0' && letter <= '9';
}

static int is_sign(char letter)
{
    return letter == '+' || letter == '-';
}

static int is_exponent(char letter)
{
    return letter == 'e' || letter == 'E';
}

APART enum state after(enum state state, char letter)
{
    switch (state) {
    case START: return is_digit(letter) ? WHOLE : is_sign(letter) ? SIGN : letter == '.' ? POINT : WRONG;
    case SIGN: return is_digit(letter) ? WHOLE : letter == '.' ? POINT : WRONG;
    case WHOLE: return is_digit(letter) ? WHOLE : letter == '.' ? POINT : is_exponent(letter) ? LETTER : WRONG;
    case POINT: return is_digit(letter) ? POINT : is_exponent(letter) ? LETTER : WRONG;
    case LETTER: return is_digit(letter) ? EXPONENT : is_sign(letter) ? LETTER_SIGN : WRONG;
    case LETTER_SIGN:
    case EXPONENT: return is_digit(letter) ? EXPONENT : WRONG;
    default: return WRONG;
    }
}

static unsigned short use_text(unsigned short sum)
{
    enum state state = START;
    for (const char *letter = text; *letter != 0; letter++) {
        if (*letter == ',') {
            ends[state]++;
            state = START;
        } else {
            state = after(state, *letter);
        }
    }
    for (int i = 0; i < STATES; i++)
        sum = checksum(sum, ends[i]);
    return sum;
}

static unsigned work(void)
{
    unsigned short sum = 0;
    for (int turn = 0; turn < TURNS; turn++)
        sum = use_text(use_matrices(use_list(sum)));
    return sum;
}
