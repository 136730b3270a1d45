/* Questions read into a postfix program, and the walk over windows and jumps. */
#include "engine.h"

#include "engine_index.h"

enum { WINDOW = 8192, WORDS = WINDOW / 64, SLOTS = 16, CODES = 64, DEPTH = 18, FAR = 1024, END = 16777216 };
enum code { AND = 16, OR = 17, NOT = 18 }; /* below 16: push that slot */

/* A list with its reading places. */
struct slot {
    const uint8_t *s, *l, *u;
    size_t singles, pairs, p, q;
};

struct program {
    struct slot slots[SLOTS];
    uint8_t codes[CODES];
    size_t slot_count, code_count;
    uint32_t highest;
};

static struct engine_result refused(uint64_t refusal, uint64_t value)
{
    return (struct engine_result){refusal, value, 0, 0};
}

/* ---- reading a question ---- */

static int is_word_byte(uint8_t b)
{
    return (b >= 'a' && b <= 'z') || (b >= 'A' && b <= 'Z') || (b >= '0' && b <= '9');
}

static void add_slot(struct program *program, const struct sound *index, size_t entry)
{
    struct slot slot = {0};
    if (entry < index->count) {
        struct line line = line_of(index, entry);
        slot.s = index->bytes + line.list_start;
        slot.singles = line.singles;
        slot.pairs = line.pairs;
        slot.l = slot.s + 4 * slot.singles;
        slot.u = slot.l + 4 * slot.pairs;
    }
    program->slots[program->slot_count] = slot;
    program->codes[program->code_count++] = (uint8_t)program->slot_count++;
}

/* In any mixture of small and capital letters: of the bytes that a run has, | 32 changes the capitals alone. */
static enum code operator_of(const uint8_t *word, size_t length)
{
    if (length == 2) {
        return (word[0] | 32) == 'o' && (word[1] | 32) == 'r' ? OR : 0;
    }
    if (length != 3) {
        return 0;
    }
    uint8_t a = word[0] | 32, b = word[1] | 32, c = word[2] | 32;
    return a == 'a' && b == 'n' && c == 'd' ? AND : a == 'n' && b == 'o' && c == 't' ? NOT : 0;
}

/* Rows 6, 7, 8. */
static struct engine_result scan(const uint8_t *question, size_t length)
{
    if (length > 256) {
        return refused(6, length);
    }
    for (size_t i = 0; i < length; i++) {
        if (!is_word_byte(question[i]) && question[i] != ' ' && question[i] != '(' && question[i] != ')') {
            return refused(7, i);
        }
    }
    for (size_t i = 0, run = 0; i < length; i++) {
        run = is_word_byte(question[i]) ? run + 1 : 0;
        if (run > 32) {
            return refused(8, i - 32);
        }
    }
    return refused(0, 0);
}

/* The operators of one open bracket that wait for their right side: `group` for the next operand, `sum`, by rule 2 alone, for the end of a group. */
struct waiting {
    enum code group, sum;
};

static void put_code(struct program *program, enum code *code)
{
    if (*code != 0) {
        program->codes[program->code_count++] = (uint8_t)*code;
    }
    *code = 0;
}

/* By rule 2 an `or` ends a group, and waits for the next one. */
static void take_operator(struct program *program, struct waiting *waiting, enum code operator, uint32_t rule)
{
    if (rule == 2 && operator == OR) {
        put_code(program, &waiting->sum);
        waiting->sum = OR;
    } else {
        waiting->group = operator;
    }
}

/* Rows 9, 10, 11. */
static struct engine_result parse(struct program *program, const struct sound *index, uint32_t rule, const uint8_t *question, size_t length)
{
    struct waiting waiting[9] = {{0, 0}};
    int depth = 0, wants_operand = 1;
    for (size_t i = 0; i < length;) {
        size_t start = i;
        uint8_t b = question[i++];
        if (b == ' ') {
            continue;
        }
        if (b == '(' && wants_operand) {
            if (depth == 8) {
                return refused(11, start);
            }
            depth++;
            continue;
        }
        if (b == ')' && !wants_operand && depth > 0) {
            put_code(program, &waiting[depth--].sum);
        } else if (b == '(' || b == ')') {
            return refused(9, start);
        } else {
            while (i < length && is_word_byte(question[i])) {
                i++;
            }
            enum code operator = operator_of(question + start, i - start);
            if ((operator != 0) == wants_operand) {
                return refused(9, start);
            }
            if (operator != 0) {
                take_operator(program, &waiting[depth], operator, rule);
                wants_operand = 1;
                continue;
            }
            if (program->slot_count == SLOTS) {
                return refused(10, start);
            }
            add_slot(program, index, find_word(index, question + start, i - start));
        }
        wants_operand = 0;
        put_code(program, &waiting[depth].group);
    }
    put_code(program, &waiting[0].sum);
    return wants_operand || depth > 0 ? refused(9, length) : refused(0, 0);
}

/* ---- one list ---- */

/* How many of these ascending cells are below x, from a place that is not past it: doubling steps, then halving. */
static size_t seek(const uint8_t *cells, size_t count, size_t from, uint32_t x)
{
    if (from >= count || cell(cells + 4 * from) >= x) {
        return from;
    }
    size_t step = 1, low = from;
    while (low + step < count && cell(cells + 4 * (low + step)) < x) {
        low += step;
        step *= 2;
    }
    size_t high = low + step < count ? low + step : count;
    low++;
    while (low < high) {
        size_t middle = low + (high - low) / 2;
        if (cell(cells + 4 * middle) < x) {
            low = middle + 1;
        } else {
            high = middle;
        }
    }
    return low;
}

static void set_range(uint64_t *window, uint32_t from, uint32_t to)
{
    uint32_t a = from / 64, b = to / 64;
    uint64_t first = ~0ull << from % 64, last = ~0ull >> (63 - to % 64);
    if (a == b) {
        window[a] |= first & last;
        return;
    }
    window[a] |= first;
    for (uint32_t i = a + 1; i < b; i++) {
        window[i] = ~0ull;
    }
    window[b] |= last;
}

/* The bits of records base to base + 8191. */
static void fill(struct slot *slot, uint32_t base, uint64_t *window)
{
    uint32_t end = base + WINDOW;
    memset(window, 0, WORDS * sizeof *window);
    size_t p = slot->p = seek(slot->s, slot->singles, slot->p, base);
    for (; p < slot->singles; p++) {
        uint32_t single = cell(slot->s + 4 * p);
        if (single >= end) {
            break;
        }
        window[(single - base) / 64] |= 1ull << (single - base) % 64;
    }
    slot->p = p;
    size_t q = slot->q = seek(slot->u, slot->pairs, slot->q, base);
    for (; q < slot->pairs; q++) {
        uint32_t l = cell(slot->l + 4 * q), u = cell(slot->u + 4 * q);
        if (l >= end) {
            break;
        }
        set_range(window, l > base ? l - base : 0, u < end ? u - base : WINDOW - 1);
        if (u >= end) {
            break;
        }
    }
    slot->q = q;
}

/* Whether x is in, and the first number above it up to which that is sure to stay so. */
struct sense {
    int inside;
    uint32_t until;
};

static struct sense look(struct slot *slot, uint32_t x)
{
    slot->p = seek(slot->s, slot->singles, slot->p, x);
    slot->q = seek(slot->u, slot->pairs, slot->q, x);
    uint32_t single = slot->p < slot->singles ? cell(slot->s + 4 * slot->p) : END;
    uint32_t low = slot->q < slot->pairs ? cell(slot->l + 4 * slot->q) : END;
    if (single == x) {
        return (struct sense){1, x + 1};
    }
    if (low <= x) {
        return (struct sense){1, cell(slot->u + 4 * slot->q) + 1};
    }
    return (struct sense){0, single < low ? single : low};
}

/* ---- the program ---- */

static struct sense both(struct sense a, struct sense b)
{
    if (a.inside && b.inside) {
        return (struct sense){1, a.until < b.until ? a.until : b.until};
    }
    if (a.inside) {
        return b;
    }
    if (b.inside) {
        return a;
    }
    return (struct sense){0, a.until > b.until ? a.until : b.until};
}

static struct sense inverse(struct sense a)
{
    return (struct sense){!a.inside, a.until};
}

static struct sense look_program(struct program *program, uint32_t x)
{
    struct sense stack[DEPTH];
    size_t top = 0;
    for (size_t i = 0; i < program->code_count; i++) {
        uint8_t code = program->codes[i];
        if (code < AND) {
            stack[top++] = look(&program->slots[code], x);
            continue;
        }
        struct sense right = stack[--top], left = stack[top - 1];
        if (code == OR) {
            stack[top - 1] = inverse(both(inverse(left), inverse(right)));
        } else {
            stack[top - 1] = both(left, code == AND ? right : inverse(right));
        }
    }
    return stack[0];
}

static void fill_program(struct program *program, uint32_t base, uint64_t stack[DEPTH][WORDS])
{
    size_t top = 0;
    for (size_t i = 0; i < program->code_count; i++) {
        uint8_t code = program->codes[i];
        if (code < AND) {
            fill(&program->slots[code], base, stack[top++]);
            continue;
        }
        const uint64_t *right = stack[--top];
        uint64_t *left = stack[top - 1];
        for (size_t k = 0; k < WORDS; k++) {
            left[k] = code == AND ? left[k] & right[k] : code == OR ? left[k] | right[k] : left[k] & ~right[k];
        }
    }
}

/* ---- the walk ---- */

struct walk {
    uint32_t *cells; /* NULL: only counts */
    uint64_t written, records;
    uint32_t low;
};

/* Membership changes at x. */
static inline void flip(struct walk *walk, uint32_t x)
{
    if (walk->written % 2 == 0) {
        walk->low = x;
        if (walk->cells) {
            walk->cells[walk->written] = x;
        }
    } else {
        walk->records += x - walk->low;
        if (walk->cells) {
            walk->cells[walk->written] = x - 1;
        }
    }
    walk->written++;
}

static void flips(struct walk *walk, const uint64_t *window, uint32_t base)
{
    uint64_t carry = walk->written % 2;
    for (uint32_t i = 0; i < WORDS; i++) {
        uint64_t changed = window[i] ^ (window[i] << 1 | carry);
        carry = window[i] >> 63;
        for (; changed != 0; changed &= changed - 1) {
            flip(walk, base + 64 * i + (uint32_t)__builtin_ctzll(changed));
        }
    }
}

static void walk_all(struct program *program, struct walk *walk)
{
    uint64_t stack[DEPTH][WORDS];
    for (size_t k = 0; k < program->slot_count; k++) {
        program->slots[k].p = program->slots[k].q = 0;
    }
    uint32_t x = 1;
    while (x <= program->highest) {
        struct sense sense = look_program(program, x);
        if (sense.until - x >= FAR) {
            if ((uint64_t)sense.inside != walk->written % 2) {
                flip(walk, x);
            }
            x = sense.until;
        } else {
            fill_program(program, x, stack);
            flips(walk, stack[0], x);
            x += WINDOW;
        }
    }
    if (walk->written % 2 == 1) {
        flip(walk, program->highest + 1);
    }
}

/* Row 12, then the cells. One walk where the room is surely enough, else one that counts before it. */
static struct engine_result run(struct program *program, uint32_t *cells, size_t room)
{
    size_t most = 0;
    for (size_t k = 0; k < program->slot_count; k++) {
        most += program->slots[k].singles + program->slots[k].pairs;
    }
    if (room / 2 < most) {
        struct walk counting = {NULL, 0, 0, 0};
        walk_all(program, &counting);
        if (counting.written / 2 > room / 2) {
            return refused(12, counting.written / 2);
        }
    }
    struct walk walk = {cells, 0, 0, 0};
    walk_all(program, &walk);
    return (struct engine_result){0, 0, walk.written / 2, walk.records};
}

struct engine_result engine_ask(const uint8_t *bytes, size_t length, uint32_t rule, const uint8_t *question, size_t question_length,
                                uint32_t *cells, size_t room)
{
    struct sound index;
    struct engine_result result = open_index(bytes, length, &index);
    if (result.refusal != 0) {
        return result;
    }
    if (rule != 1 && rule != 2) {
        return refused(22, rule);
    }
    struct program program;
    program.slot_count = program.code_count = 0;
    program.highest = index.highest;
    result = scan(question, question_length);
    if (result.refusal == 0) {
        result = parse(&program, &index, rule, question, question_length);
    }
    return result.refusal != 0 ? result : run(&program, cells, room);
}

static struct engine_result join(const uint8_t *bytes, size_t length, const uint32_t *entries, size_t count, uint32_t *cells, size_t room,
                                 enum code code)
{
    struct sound index;
    struct engine_result result = open_index(bytes, length, &index);
    if (result.refusal != 0) {
        return result;
    }
    if (count == 0 || count > SLOTS) {
        return refused(13, count);
    }
    struct program program;
    program.slot_count = program.code_count = 0;
    program.highest = index.highest;
    for (size_t i = 0; i < count; i++) {
        if (entries[i] >= index.count) {
            return refused(14, i);
        }
        add_slot(&program, &index, entries[i]);
        if (i > 0) {
            program.codes[program.code_count++] = (uint8_t)code;
        }
    }
    return run(&program, cells, room);
}

struct engine_result engine_union(const uint8_t *index, size_t length, const uint32_t *entries, size_t count, uint32_t *cells, size_t room)
{
    return join(index, length, entries, count, cells, room, OR);
}

struct engine_result engine_intersection(const uint8_t *index, size_t length, const uint32_t *entries, size_t count, uint32_t *cells,
                                         size_t room)
{
    return join(index, length, entries, count, cells, room, AND);
}
