/* The eliminations of a table in plain C, over a prime: what the program's time is measured against.

   It forms each source row of each weight once (relations, and Jacobi triples i <= j <= k), and inserts it into an
   echelon of sparse rows, by one dense work row with a bit for each place that may not be 0. It keeps no steps, checks
   nothing, writes no table, and knows no cubes, so the prime is not 3 where there are odd elements. It prints the
   number of basis elements of each weight.

   Input: numbers, as for_plain of presentation.py writes them. Symbols, basis elements and places count from 0.
   Build: cc -O2 -march=native -o plain plain.c */

#include <stdint.h>
#include <stdio.h>
#include <stdlib.h>

typedef uint32_t u32;
typedef uint64_t u64;

enum { MOST_WEIGHT = 1000, MOST_GENERATORS = 64, MOST_DEPTH = 128 };

/* The numbers of a row that are not 0, by ascending place. */
typedef struct { u32 count, *at, *number; } Row;

/* A relation: multiples of monomials, each in postfix order with -1 for a bracket. */
typedef struct { u32 number, length; int *words; } Term;
typedef struct { u32 weight, count; Term *terms; } Relation;

/* Its basis elements are those from first to end, without end. The pair (i,j) has the symbol start[i] + j. */
typedef struct { u32 first, end, generators, symbols, *start; Row *value; } Weight;

static u32 prime, limit, generator_count, relation_count;
static u32 generator_weight[MOST_GENERATORS], generator_parity[MOST_GENERATORS], generator_symbol[MOST_GENERATORS];
static Relation *relations;
static Weight weights[MOST_WEIGHT + 1];
static u32 basis_count, basis_room, *basis_weight;
static unsigned char *basis_parity;

/* The work row of the weight that is made, and its marks. */
static u32 now, *work;
static u64 *marks;

static void *room(size_t bytes) {
    void *given = calloc(bytes + 8, 1);
    if (!given) exit(1);
    return given;
}

/* Small pieces that are never given back. */
static void *piece(size_t bytes) {
    static char *from;
    static size_t left;
    bytes = (bytes + 7) & ~(size_t)7;
    if (bytes > left) {
        left = bytes > (1u << 22) ? bytes : (1u << 22);
        from = malloc(left);
        if (!from) exit(1);
    }
    void *given = from;
    from += bytes;
    left -= bytes;
    return given;
}

static Row row_of(u32 count) {
    Row row = {count, piece(4ul * count), piece(4ul * count)};
    return row;
}

static u32 inverse(u32 a) {
    u64 result = 1, power = a;
    for (u32 e = prime - 2; e; e >>= 1, power = power * power % prime)
        if (e & 1) result = result * power % prime;
    return (u32)result;
}

static u32 negative(u32 a) { return a ? prime - a : 0; }

/* [b_i,b_j] is the sign, 1 or -1, times the regular pair (*a,*b); 0 where it is 0. */
static int regular(u32 i, u32 j, u32 *a, u32 *b) {
    *a = i < j ? i : j;
    *b = i < j ? j : i;
    if (i == j) return basis_parity[i];
    return i < j || (basis_parity[i] && basis_parity[j]) ? 1 : -1;
}

static Row *entry(u32 a, u32 b) {
    Weight *w = &weights[basis_weight[a] + basis_weight[b]];
    return &w->value[w->start[a] + b];
}

static inline void add_at(u32 place, u32 number) {
    u32 sum = work[place] + number;
    work[place] = sum >= prime ? sum - prime : sum;
    marks[place >> 6] |= (u64)1 << (place & 63);
}

static inline void add_row(u32 factor, const Row *row) {
    for (u32 k = 0; k < row->count; k++) {
        u32 place = row->at[k];
        work[place] = (u32)((work[place] + (u64)factor * row->number[k]) % prime);
        marks[place >> 6] |= (u64)1 << (place & 63);
    }
}

/* Adds factor * [b_i,b_j], bracketed with b_fixed on its left or right, where the outer brackets are symbols. */
static void add_double(u32 i, u32 j, int factor, u32 fixed, int left) {
    u32 a, b;
    int sign = regular(i, j, &a, &b) * factor;
    if (!sign) return;
    Row *inner = entry(a, b);
    u32 *start = weights[now].start;
    for (u32 k = 0; k < inner->count; k++) {
        int outer = left ? regular(fixed, inner->at[k], &a, &b) : regular(inner->at[k], fixed, &a, &b);
        if (outer) add_at(start[a] + b, outer == sign ? inner->number[k] : prime - inner->number[k]);
    }
}

/* Takes the rows off the work row from a place down; the greatest place of what is left, or -1. */
static long sweep(long from, const Row *rows, const char *held) {
    long lead = -1;
    for (long word = from >> 6; word >= 0; word--)
        for (u64 left = marks[word], done = 0; left; left = marks[word] & ~done) {
            int bit = 63 - __builtin_clzl(left);
            u32 place = (u32)(word << 6) + (u32)bit;
            done |= ~(u64)0 << bit;
            if (!work[place]) continue;
            if (held[place]) add_row(prime - work[place], &rows[place]);
            else if (lead < 0) lead = place;
        }
    return lead;
}

/* The work row through a place, times a number. */
static Row gather(u32 through, u32 factor) {
    u32 count = 0;
    for (int fill = 0;; fill = 1) {
        Row row = fill ? row_of(count) : (Row){0, 0, 0};
        count = 0;
        for (u32 word = 0; word <= through >> 6; word++)
            for (u64 left = marks[word]; left; left &= left - 1) {
                u32 place = (word << 6) + (u32)__builtin_ctzl(left);
                if (!work[place]) continue;
                if (fill) {
                    row.at[count] = place;
                    row.number[count] = (u32)((u64)work[place] * factor % prime);
                }
                count++;
            }
        if (fill) return row;
    }
}

static void clear(u32 symbols) {
    for (u32 word = 0; word <= symbols >> 6; word++)
        for (; marks[word]; marks[word] &= marks[word] - 1) work[(word << 6) + (u32)__builtin_ctzl(marks[word])] = 0;
}

static void insert(u32 symbols, Row *rows, char *held) {
    long lead = sweep(symbols, rows, held);
    if (lead >= 0) {
        rows[lead] = gather((u32)lead, inverse(work[lead]));
        held[lead] = 1;
    }
    clear(symbols);
}

/* The bracket of two rows of basis elements, of weight below the one that is made. */
static Row bracket(Row x, Row y) {
    u32 *sum = room(4ul * basis_count), a, b, count = 0;
    for (u32 s = 0; s < x.count; s++)
        for (u32 t = 0; t < y.count; t++) {
            int sign = regular(x.at[s], y.at[t], &a, &b);
            if (!sign) continue;
            u64 factor = (u64)x.number[s] * y.number[t] % prime;
            Row *value = entry(a, b);
            if (sign < 0) factor = prime - factor;
            for (u32 k = 0; k < value->count; k++)
                sum[value->at[k]] = (u32)((sum[value->at[k]] + factor * value->number[k]) % prime);
        }
    for (u32 k = 0; k < basis_count; k++) count += sum[k] != 0;
    Row row = row_of(count);
    count = 0;
    for (u32 k = 0; k < basis_count; k++)
        if (sum[k]) {
            row.at[count] = k;
            row.number[count++] = sum[k];
        }
    free(sum);
    return row;
}

static Row image(u32 generator) {
    return weights[generator_weight[generator]].value[generator_symbol[generator]];
}

/* Adds a term of a relation, with its outermost bracket at its symbol. */
static void add_term(Term *term) {
    Row stack[MOST_DEPTH];
    u32 depth = 0, a, b;
    if (term->length == 1) {
        add_at(generator_symbol[term->words[0]], term->number);
        return;
    }
    for (u32 k = 0; k + 1 < term->length; k++) {
        if (term->words[k] >= 0) stack[depth++] = image((u32)term->words[k]);
        else {
            depth--;
            stack[depth - 1] = bracket(stack[depth - 1], stack[depth]);
        }
    }
    for (u32 s = 0; s < stack[0].count; s++)
        for (u32 t = 0; t < stack[1].count; t++) {
            int sign = regular(stack[0].at[s], stack[1].at[t], &a, &b);
            u32 number = (u32)((u64)stack[0].number[s] * stack[1].number[t] % prime * term->number % prime);
            if (sign) add_at(weights[now].start[a] + b, sign > 0 ? number : negative(number));
        }
}

/* Numbers the symbols of the weight: its generators, then its regular pairs, and says what each is made of. */
static void number_symbols(Weight *w, u32 **first, u32 **second) {
    u32 pairs = 0;
    for (u32 g = 0; g < generator_count; g++)
        if (generator_weight[g] == now) generator_symbol[g] = w->generators++;
    w->symbols = w->generators;
    w->start = room(4ul * basis_count);
    for (int fill = 0; fill < 2; fill++, pairs = w->symbols) {
        if (fill) {
            *first = room(4ul * pairs);
            *second = room(4ul * pairs);
            w->symbols = w->generators;
        }
        for (u32 i = 0; i < basis_count && basis_weight[i] < now; i++) {
            Weight *other = &weights[now - basis_weight[i]];
            u32 least = i + !basis_parity[i], j = other->first > least ? other->first : least;
            if (j >= other->end) continue;
            w->start[i] = w->symbols - j;
            for (; j < other->end; j++, w->symbols++)
                if (fill) {
                    (*first)[w->symbols] = i;
                    (*second)[w->symbols] = j;
                }
        }
    }
}

/* Inserts the source rows of the weight. */
static void eliminate(Weight *w, Row *rows, char *held) {
    for (u32 r = 0; r < relation_count; r++)
        if (relations[r].weight == now) {
            for (u32 k = 0; k < relations[r].count; k++) add_term(&relations[r].terms[k]);
            insert(w->symbols, rows, held);
        }
    for (u32 i = 0; i < basis_count && 3 * basis_weight[i] <= now; i++)
        for (u32 j = i; j < basis_count && basis_weight[i] + 2 * basis_weight[j] <= now; j++) {
            Weight *third = &weights[now - basis_weight[i] - basis_weight[j]];
            int sign = basis_parity[i] && basis_parity[j] ? 1 : -1;
            for (u32 k = third->first > j ? third->first : j; k < third->end; k++) {
                if ((i == j && !basis_parity[i]) || (j == k && !basis_parity[j])) continue;
                add_double(j, k, 1, i, 1);
                add_double(i, j, -1, k, 0);
                add_double(i, k, sign, j, 1);
                insert(w->symbols, rows, held);
            }
        }
}

/* Makes each row 0 at the greatest places of the others. */
static void close_rows(Weight *w, Row *rows, char *held) {
    char *closed = room(w->symbols);
    for (u32 s = 0; s < w->symbols; s++) {
        if (!held[s]) continue;
        if (rows[s].count > 1) {
            add_row(1, &rows[s]);
            sweep((long)s - 1, rows, closed);
            rows[s] = gather(s, 1);
            clear(w->symbols);
        }
        closed[s] = 1;
    }
    free(closed);
}

static void push_basis(u32 parity) {
    if (basis_count == basis_room) {
        basis_room = 2 * basis_room + 1024;
        basis_weight = realloc(basis_weight, 4ul * basis_room);
        basis_parity = realloc(basis_parity, basis_room);
        if (!basis_weight || !basis_parity) exit(1);
    }
    basis_weight[basis_count] = now;
    basis_parity[basis_count++] = (unsigned char)parity;
}

/* The symbols without a row become basis elements; the others are minus the rest of their row. */
static void push_weight(Weight *w, const Row *rows, const char *held, const u32 *first, const u32 *second) {
    u32 *element = room(4ul * w->symbols);
    w->first = basis_count;
    for (u32 g = 0, s = 0; g < generator_count; g++)
        if (generator_weight[g] == now && !held[s++]) {
            element[s - 1] = basis_count;
            push_basis(generator_parity[g]);
        }
    for (u32 s = w->generators; s < w->symbols; s++)
        if (!held[s]) {
            element[s] = basis_count;
            push_basis(basis_parity[first[s]] ^ basis_parity[second[s]]);
        }
    w->end = basis_count;
    w->value = room(sizeof(Row) * w->symbols);
    for (u32 s = 0; s < w->symbols; s++) {
        Row value = row_of(held[s] ? rows[s].count - 1 : 1);
        for (u32 k = 0; k < value.count; k++) {
            value.at[k] = element[held[s] ? rows[s].at[k] : s];
            value.number[k] = held[s] ? prime - rows[s].number[k] : 1;
        }
        w->value[s] = value;
    }
    free(element);
}

static void make_weight(void) {
    Weight *w = &weights[now];
    u32 *first = 0, *second = 0;
    number_symbols(w, &first, &second);
    work = room(4ul * w->symbols + 256);
    marks = room(8ul * (w->symbols >> 6) + 16);
    Row *rows = room(sizeof(Row) * w->symbols);
    char *held = room(w->symbols);
    eliminate(w, rows, held);
    close_rows(w, rows, held);
    push_weight(w, rows, held, first, second);
    free(first);
    free(second);
    free(work);
    free(marks);
    free(rows);
    free(held);
}

static u32 read_number(void) {
    int number;
    if (scanf("%d", &number) != 1) exit(2);
    return (u32)number;
}

static void read_presentation(void) {
    prime = read_number();
    limit = read_number();
    generator_count = read_number();
    for (u32 g = 0; g < generator_count; g++) {
        generator_weight[g] = read_number();
        generator_parity[g] = read_number();
    }
    relation_count = read_number();
    relations = room(sizeof(Relation) * relation_count);
    for (u32 r = 0; r < relation_count; r++) {
        relations[r].weight = read_number();
        relations[r].count = read_number();
        relations[r].terms = room(sizeof(Term) * relations[r].count);
        for (u32 k = 0; k < relations[r].count; k++) {
            Term *term = &relations[r].terms[k];
            term->number = read_number();
            term->length = read_number();
            term->words = room(sizeof(int) * term->length);
            for (u32 q = 0; q < term->length; q++) term->words[q] = (int)read_number();
        }
    }
}

int main(void) {
    read_presentation();
    for (now = 1; now <= limit; now++) {
        make_weight();
        printf("%u\n", weights[now].end - weights[now].first);
    }
    return 0;
}
