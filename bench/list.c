// The program `list` in plain C11, to measure it against: bench/list tells how. It has the same design (chunks and
// room, the open line, the walk, outlines, chains in groups, the height by blocks), takes its names from the crates,
// and prints the same bytes. Nothing is proved here: no addition is tested (in 64 bits none overflows: crate
// `never_over`), and of the magnitudes it is only kept whether all are at most 1. Combs and mirrors are plain loops,
// and the divisors' sizes stand in a table.

#include <errno.h>
#include <stdbool.h>
#include <stddef.h>
#include <stdint.h>
#include <string.h>
#include <unistd.h>

enum { CHUNK = 65536, OUT = 131072, ROOM = 4096, MOST = 90264, KEPT = 40, BLOCK = 16, ROW = 64, PRIMES = 5 };
enum { DONE = 0, INDEX = 2, LIMIT = 3, SHORT = 4, TALL = 6 };

// ---- sieve, index: n taken apart

struct Parts {
    size_t primes[PRIMES], count, r, m, t, free, phi;
};

static void with_prime(struct Parts *parts, size_t p) {
    parts->primes[parts->count++] = p;
    parts->r *= p;
    parts->free *= p - 1;
}

static struct Parts take_apart(size_t n) {
    struct Parts parts = {.r = 1, .free = 1};
    size_t rest = n;
    while (rest % 2 == 0) rest /= 2;
    for (size_t p = 3; p * p <= rest; p += 2) {
        if (rest % p != 0) continue;
        with_prime(&parts, p);
        while (rest % p == 0) rest /= p;
    }
    if (1 < rest) with_prime(&parts, rest);
    parts.m = n % 2 == 0 ? 2 * parts.r : parts.r;
    parts.t = n / parts.m;
    parts.phi = parts.free * parts.t;
    return parts;
}

static size_t degree_from(bool inverse, size_t n, size_t phi) { return inverse ? n - phi : phi; }

// ---- divisors: the walk over those of r below r, ascending; a divisor d is named by the set of its primes

struct Walk {
    size_t sizes[1 << PRIMES], full, last;
    bool plus[1 << PRIMES]; // whether mu(r/d) is +1
};

static void walk_over(struct Walk *walk, const struct Parts *parts) {
    walk->full = ((size_t)1 << parts->count) - 1;
    walk->last = 0;
    walk->sizes[0] = 1;
    walk->plus[0] = parts->count % 2 == 0;
    for (size_t i = 0, bit = 1; i < parts->count; i++, bit *= 2)
        for (size_t mask = 0; mask < bit; mask++) {
            walk->sizes[bit + mask] = walk->sizes[mask] * parts->primes[i];
            walk->plus[bit + mask] = !walk->plus[mask];
        }
}

static size_t next_divisor(struct Walk *walk) {
    size_t best = walk->full;
    for (size_t mask = 0; mask < walk->full; mask++)
        if (walk->last < walk->sizes[mask] && walk->sizes[mask] < walk->sizes[best]) best = mask;
    walk->last = walk->sizes[best];
    return best;
}

// ---- combs, chains, chain_groups, accumulates: the steps

static void comb(int64_t *a, size_t n, size_t d) {
    for (size_t i = n; d < i--;) a[i] -= a[i - d];
}

// g neighbouring chains side by side, each with its running sum; g is a constant where it is called.
static inline void take_group(size_t g, int64_t *a, size_t n, size_t c, size_t d) {
    int64_t s[16];
    size_t k = c + d;
    for (size_t q = 0; q < g; q++) s[q] = a[c + q];
    for (; k + g <= n; k += d)
        for (size_t q = 0; q < g; q++) a[k + q] = s[q] += a[k + q];
    for (size_t q = 0; k + q < n; q++) a[k + q] += s[q];
}

static void take_chains(size_t g, int64_t *a, size_t n, size_t c, size_t d) {
    switch (g) {
    case 16: take_group(16, a, n, c, d); break;
    case 8: take_group(8, a, n, c, d); break;
    case 7: take_group(7, a, n, c, d); break;
    case 6: take_group(6, a, n, c, d); break;
    case 5: take_group(5, a, n, c, d); break;
    case 4: take_group(4, a, n, c, d); break;
    case 3: take_group(3, a, n, c, d); break;
    case 2: take_group(2, a, n, c, d); break;
    default: take_group(1, a, n, c, d);
    }
}

static void accumulate(int64_t *a, size_t n, size_t d) {
    if (d == 1)
        take_group(1, a, n, 0, 1);
    else if (n <= d + d)
        for (size_t x = d; x < n; x++) a[x] += a[x - d];
    else
        for (size_t c = 0, g; c < d; c += g) {
            g = 16 <= d - c ? 16 : 8 <= d - c ? 8 : d - c;
            take_chains(g, a, n, c, d);
        }
}

// ---- outlined_steps, repeats: entries told by the first few, after which come zeros or the same again

struct Outline {
    size_t told;
    bool repeats;
};

static void clear(int64_t *a, size_t from, size_t to) { memset(a + from, 0, (to - from) * sizeof *a); }

// The first d entries again and again, copied from so far back that what is read was stored long before.
static void repeat(int64_t *a, size_t n, size_t d) {
    size_t far = d;
    while (far < 128 && far <= n - far) far += far;
    for (size_t i = d; i < far; i++) a[i] = a[i - d];
    for (size_t i = far; i < n; i++) a[i] = a[i - far];
}

static void write_out(int64_t *a, size_t n, struct Outline o) {
    if (o.repeats)
        repeat(a, n, o.told);
    else
        clear(a, o.told, n);
}

// An accumulate of size d of the first t entries again and again, row by row.
static void accumulate_repeated(int64_t *a, size_t n, size_t t, size_t d) {
    size_t rest = d % t, row = d - rest;
    repeat(a, d, t);
    for (size_t x = row; x + rest < n; x += row) {
        size_t from = x + rest, to = n - from < row ? n : from + row;
        for (size_t k = from; k < to; k++) a[k] = a[k - x] + a[k - d];
    }
}

// One step of size d < n. Where it adds anything, the magnitudes may be above 1 after it.
static struct Outline take_outlined(int64_t *a, size_t n, struct Outline o, bool combs, size_t d, bool *flat) {
    if (combs && o.repeats && d % o.told == 0) {
        repeat(a, d, o.told);
        return (struct Outline){d, false};
    }
    if (!combs && !o.repeats && o.told <= d) {
        clear(a, o.told, d);
        return (struct Outline){d, true};
    }
    *flat = false;
    if (!combs && o.repeats && o.told <= d && ROW <= d - d % o.told) {
        accumulate_repeated(a, n, o.told, d);
        return (struct Outline){n, false};
    }
    size_t to = combs && !o.repeats && o.told + d < n ? o.told + d : n;
    write_out(a, to, o);
    if (combs)
        comb(a, to, d);
    else
        accumulate(a, to, d);
    return (struct Outline){to, false};
}

// ---- kept_half: the lower half for r, of n entries; answers the additions

static size_t all_steps(bool inverse, const struct Parts *parts, int64_t *a, size_t n, bool *flat) {
    size_t additions = 0;
    struct Outline o = {1, false};
    struct Walk walk;
    walk_over(&walk, parts);
    a[0] = inverse ? -1 : 1;
    *flat = true;
    for (size_t i = 0; i < walk.full; i++) {
        size_t named = next_divisor(&walk), d = walk.sizes[named];
        if (n <= d) break;
        o = take_outlined(a, n, o, walk.plus[named] != inverse, d, flat);
        additions += n - d;
    }
    write_out(a, n, o);
    if (!inverse && parts->count == 2) *flat = true; // F of two primes has no magnitude above 1
    return additions;
}

// ---- heights, peaks: the height and the lowest place where it stands

struct Top {
    uint64_t height;
    size_t place;
};

static uint64_t magnitude(int64_t x) { return x < 0 ? -(uint64_t)x : (uint64_t)x; }

static bool none_in_block(const int64_t *a, int64_t h) {
    int64_t gathered = 0;
    for (size_t q = 0; q < BLOCK; q++) gathered |= (h - a[q]) | (h + a[q]);
    return 0 <= gathered;
}

static size_t next_above(const int64_t *a, size_t n, size_t i, int64_t h) {
    while (i + BLOCK <= n && none_in_block(a + i, h)) i += BLOCK;
    while (i < n && -h <= a[i] && a[i] <= h) i++;
    return i;
}

static struct Top peak_within(const int64_t *a, size_t n, bool flat) {
    struct Top top = {1, 0}; // the first entry is 1 or -1
    for (size_t i = flat ? n : next_above(a, n, 1, 1); i < n; i = next_above(a, n, i + 1, (int64_t)top.height))
        top = (struct Top){magnitude(a[i]), i};
    return top;
}

// ---- shapes, squarefree_from_half, whole_from_half: from the lower half for r to the polynomial of m, and to that of n

static void mirror(int64_t *a, size_t n, bool negate) {
    if (negate)
        for (size_t i = (n + 1) / 2; i < n; i++) a[i] = -a[n - 1 - i];
    else
        for (size_t i = (n + 1) / 2; i < n; i++) a[i] = a[n - 1 - i];
}

static void of_m(int64_t *a, bool inverse, const struct Parts *parts) {
    size_t r = parts->r, top = degree_from(inverse, r, parts->free) + 1;
    mirror(a, top, inverse);
    if (parts->m == r) return;
    for (size_t i = 1; i < top; i += 2) a[i] = -a[i];
    if (!inverse) return;
    clear(a, top, r);
    for (size_t i = 0; i < top; i++) a[r + i] = -a[i];
}

static void spread(int64_t *a, size_t top, size_t t) {
    if (t == 1) return;
    clear(a, top + 1, top * t + 1);
    for (size_t i = top; 0 < i; i--) {
        int64_t x = a[i];
        a[i] = 0;
        a[i * t] = x;
    }
}

// ---- polynomial

struct Answer {
    size_t code, degree, additions, height, peak;
    int64_t gain;
};

static int64_t gain_of(bool inverse, size_t n, const struct Parts *parts) {
    if (inverse) return n == 1;
    return n == 1 ? 0 : parts->free == parts->m - 1 ? (int64_t)parts->m : 1;
}

static struct Answer polynomial(bool inverse, size_t n, uint64_t h, int64_t *b) {
    if (n == 0 || 65535 < n) return (struct Answer){.code = INDEX};
    if (h == 0) return (struct Answer){.code = LIMIT};
    struct Parts parts = take_apart(n);
    size_t degree = degree_from(inverse, n, parts.phi), of_base = degree_from(inverse, parts.m, parts.free);
    size_t additions = 0;
    struct Top top = {1, 0};
    if (ROOM <= degree) return (struct Answer){.code = SHORT, .degree = degree};
    if (parts.r == 1) {
        b[0] = inverse == (parts.m == 2) ? -1 : 1;
        b[of_base] = 1;
    } else {
        bool flat;
        size_t half = degree_from(inverse, parts.r, parts.free) / 2 + 1;
        additions = all_steps(inverse, &parts, b, half, &flat);
        top = peak_within(b, half, flat);
        if (h < top.height) {
            clear(b, 0, degree + 1);
            return (struct Answer){.code = TALL, .degree = degree};
        }
        of_m(b, inverse, &parts);
    }
    spread(b, of_base, parts.t);
    return (struct Answer){DONE, degree, additions, top.height, top.place * parts.t, gain_of(inverse, n, &parts)};
}

// ---- text, answer_lines: each puts something at a place and answers the next place

static uint8_t *put(uint8_t *p, uint8_t b) {
    *p = b;
    return p + 1;
}

static uint8_t *put_text(uint8_t *p, const char *text) {
    while (*text) p = put(p, (uint8_t)*text++);
    return p;
}

static uint8_t *put_digits(uint8_t *p, uint64_t n) {
    if (10 <= n) p = put_digits(p, n / 10);
    return put(p, (uint8_t)('0' + n % 10));
}

// Nearly all numbers have one digit.
static uint8_t *put_number(uint8_t *p, uint64_t n) { return n < 10 ? put(p, (uint8_t)('0' + n)) : put_digits(p, n); }

static uint8_t *put_item(uint8_t *p, uint64_t n) { return put_number(put(p, ' '), n); }

static uint8_t *put_signed(uint8_t *p, int64_t c) {
    p = put(p, ' ');
    put(p, '-'); // stays where c is negative
    return put_number(p + (c < 0), magnitude(c));
}

static uint8_t *put_answer(uint8_t *p, uint8_t letter, size_t n, const struct Answer *a, const int64_t *entries) {
    p = put_item(put_item(put_item(put(p, letter), n), a->code), a->degree);
    p = put_item(put_item(put_item(p, a->additions), a->height), a->peak);
    p = put_text(put_signed(p, a->gain), " :");
    if (a->code == DONE)
        for (size_t i = 0; i <= a->degree; i++) p = put_signed(p, entries[i]);
    return put(p, '\n');
}

// ---- line_so_far, digits, request_lines: the line that is being read, and what it asks for

struct Line {
    uint8_t bytes[KEPT];
    size_t length; // KEPT + 1 for all longer ones
    uint64_t number;
};

// 1 to 9 digits: the place after them and the number that they say, or no place where there are none.
static const uint8_t *number_at(const uint8_t *p, const uint8_t *end, uint64_t *v) {
    const uint8_t *start = p;
    for (*v = 0; p < end && p - start < 9 && '0' <= *p && *p <= '9'; p++) *v = *v * 10 + (uint64_t)(*p - '0');
    return p == start ? NULL : p;
}

static bool read_line(const struct Line *line, uint64_t *n, uint64_t *h) {
    const uint8_t *p = line->bytes, *end = p + line->length;
    if (line->length < 5 || KEPT < line->length || (p[0] != 'F' && p[0] != 'I') || p[1] != ' ') return false;
    p = number_at(p + 2, end, n);
    return p != NULL && p != end && *p == ' ' && number_at(p + 1, end, h) == end;
}

static uint8_t *put_closing(uint8_t *p, const struct Line *line, int64_t *entries) {
    uint64_t n, h;
    if (!read_line(line, &n, &h)) return put(put_item(put(p, '?'), line->number), '\n');
    struct Answer a = polynomial(line->bytes[0] == 'I', n, h, entries);
    return put_answer(p, line->bytes[0], n, &a, entries);
}

// ---- streams, listing, list

static bool write_whole(int fd, const uint8_t *bytes, size_t n) {
    while (0 < n) {
        ssize_t took = write(fd, bytes, n);
        if (took < 0 && errno == EINTR) continue;
        if (took <= 0) return false;
        bytes += took;
        n -= (size_t)took;
    }
    return true;
}

static bool failed(const char *what, const struct Line *line) {
    uint8_t text[128], *p = put_text(put_item(put_text(text, what), line->number - 1), " input lines\n");
    write_whole(STDERR_FILENO, text, (size_t)(p - text));
    return false;
}

static bool write_made(const struct Line *line, const uint8_t *out, const uint8_t *p) {
    return write_whole(STDOUT_FILENO, out, (size_t)(p - out)) || failed("list: writing failed after", line);
}

// Writes what a piece of the input makes: at its end, and before a line for which there may be no room.
static bool list_piece(struct Line *line, const uint8_t *piece, size_t n, uint8_t *out, int64_t *entries) {
    uint8_t *p = out;
    for (size_t i = 0; i < n; i++) {
        if (piece[i] != '\n') {
            if (line->length < KEPT)
                line->bytes[line->length++] = piece[i];
            else
                line->length = KEPT + 1;
            continue;
        }
        if (OUT - (p - out) < MOST) {
            if (!write_made(line, out, p)) return false;
            p = out;
        }
        p = put_closing(p, line, entries);
        line->length = 0;
        line->number++;
    }
    return write_made(line, out, p);
}

static bool list_next(struct Line *line, uint8_t *chunk, uint8_t *out, int64_t *entries) {
    ssize_t got;
    do got = read(STDIN_FILENO, chunk, CHUNK);
    while (got < 0 && errno == EINTR);
    if (got < 0) return failed("list: reading failed after", line);
    if (0 < got) return list_piece(line, chunk, (size_t)got, out, entries);
    if (line->length != 0) list_piece(line, (const uint8_t *)"\n", 1, out, entries);
    return false;
}

int main(void) {
    uint8_t chunk[CHUNK], out[OUT];
    int64_t entries[ROOM];
    struct Line line = {.number = 1};
    bool on = write_made(&line, out, put_text(out, "polynomials\n"));
    while (on) on = list_next(&line, chunk, out, entries);
}
