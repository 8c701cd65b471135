// Plain loops over the grids of two statements, that X, Y and Z are collinear in Desargues' figure
// with a fixed centre (S1) and in Pappus' with four free points (S2), with the construction and the
// order of points that Bukshena has. Compiled by bench/table.sh with numbers of 128 and of 64 bits:
//   figures S1|S2 changed POINTS      evaluates what depends on the axes that changed
//   figures S1|S2 everything POINTS   evaluates everything at each point
// It goes over the whole grid until it has had so many points.
#include <stdint.h>
#include <stdio.h>
#include <stdlib.h>
#include <string.h>

#ifndef NUMBER
#define NUMBER __int128
#endif
typedef NUMBER number;

struct triple {
    number a, b, c;
};

struct counts {
    uint64_t points, failed;
};

// Not static, so that the compiler cannot know them.
struct triple centre = {0, 0, 1};
int64_t values_of_digits[] = {0, 1, -1, 2, -2};

// The two values of a free point, of degree 4 together, and that of a ratio, of degree 2.
#define EACH_PAIR(x, y) \
    for (int x##k = 0; x##k <= 4; x##k++) \
        for (int y##k = 0; x##k + y##k <= 4; y##k++) \
            for (int64_t x = values_of_digits[x##k], y = values_of_digits[y##k], x##i = 1; x##i; x##i = 0)
#define EACH_RATIO(t) \
    for (int t##k = 0; t##k <= 2; t##k++) \
        for (int64_t t = values_of_digits[t##k], t##i = 1; t##i; t##i = 0)

static inline struct triple free_point(int64_t x, int64_t y)
{
    return (struct triple){x, y, 1};
}

static inline struct triple blend(struct triple s, struct triple t, int64_t by)
{
    number k = by;
    return (struct triple){s.a + k * t.a, s.b + k * t.b, s.c + k * t.c};
}

static inline struct triple cross(struct triple s, struct triple t)
{
    return (struct triple){
        s.b * t.c - s.c * t.b,
        s.c * t.a - s.a * t.c,
        s.a * t.b - s.b * t.a,
    };
}

static inline number det(struct triple s, struct triple t, struct triple u)
{
    struct triple v = cross(t, u);
    return s.a * v.a + s.b * v.b + s.c * v.c;
}

static inline void count(struct counts *counts, struct triple x, struct triple y, struct triple z)
{
    counts->failed += det(x, y, z) != 0;
    counts->points++;
}

static void desargues(struct counts *counts)
{
    struct triple o = centre;
    EACH_PAIR(ax, ay) {
        struct triple a = free_point(ax, ay);
        EACH_PAIR(bx, by) {
            struct triple b = free_point(bx, by), ab = cross(a, b);
            EACH_PAIR(cx, cy) {
                struct triple c = free_point(cx, cy), bc = cross(b, c), ca = cross(c, a);
                EACH_RATIO(dt) {
                    struct triple d = blend(o, a, dt);
                    EACH_RATIO(et) {
                        struct triple e = blend(o, b, et), de = cross(d, e), x = cross(ab, de);
                        EACH_RATIO(ft) {
                            struct triple f = blend(o, c, ft);
                            struct triple ef = cross(e, f), y = cross(bc, ef);
                            struct triple fd = cross(f, d), z = cross(ca, fd);
                            count(counts, x, y, z);
                        }
                    }
                }
            }
        }
    }
}

static void pappus(struct counts *counts)
{
    EACH_PAIR(ax, ay) {
        struct triple a = free_point(ax, ay);
        EACH_PAIR(bx, by) {
            struct triple b = free_point(bx, by);
            EACH_RATIO(ct) {
                struct triple c = blend(a, b, ct);
                EACH_PAIR(dx, dy) {
                    struct triple d = free_point(dx, dy), bd = cross(b, d), cd = cross(c, d);
                    EACH_PAIR(ex, ey) {
                        struct triple e = free_point(ex, ey), ae = cross(a, e), ce = cross(c, e);
                        struct triple x = cross(ae, bd);
                        EACH_RATIO(ft) {
                            struct triple f = blend(d, e, ft);
                            struct triple af = cross(a, f), y = cross(af, cd);
                            struct triple bf = cross(b, f), z = cross(bf, ce);
                            count(counts, x, y, z);
                        }
                    }
                }
            }
        }
    }
}

// Functions of their own, so that nothing is computed outside of the innermost loop.
__attribute__((noinline)) static void count_desargues(struct counts *counts, const int64_t *v)
{
    struct triple o = centre;
    struct triple a = free_point(v[0], v[1]), b = free_point(v[2], v[3]), c = free_point(v[4], v[5]);
    struct triple d = blend(o, a, v[6]), e = blend(o, b, v[7]), f = blend(o, c, v[8]);
    struct triple x = cross(cross(a, b), cross(d, e));
    struct triple y = cross(cross(b, c), cross(e, f));
    struct triple z = cross(cross(c, a), cross(f, d));
    count(counts, x, y, z);
}

__attribute__((noinline)) static void count_pappus(struct counts *counts, const int64_t *v)
{
    struct triple a = free_point(v[0], v[1]), b = free_point(v[2], v[3]), c = blend(a, b, v[4]);
    struct triple d = free_point(v[5], v[6]), e = free_point(v[7], v[8]), f = blend(d, e, v[9]);
    struct triple x = cross(cross(a, e), cross(b, d));
    struct triple y = cross(cross(a, f), cross(c, d));
    struct triple z = cross(cross(b, f), cross(c, e));
    count(counts, x, y, z);
}

static void all_desargues(struct counts *counts)
{
    EACH_PAIR(ax, ay) EACH_PAIR(bx, by) EACH_PAIR(cx, cy)
    EACH_RATIO(dt) EACH_RATIO(et) EACH_RATIO(ft) {
        int64_t values[] = {ax, ay, bx, by, cx, cy, dt, et, ft};
        count_desargues(counts, values);
    }
}

static void all_pappus(struct counts *counts)
{
    EACH_PAIR(ax, ay) EACH_PAIR(bx, by) EACH_RATIO(ct) EACH_PAIR(dx, dy) EACH_PAIR(ex, ey)
    EACH_RATIO(ft) {
        int64_t values[] = {ax, ay, bx, by, ct, dx, dy, ex, ey, ft};
        count_pappus(counts, values);
    }
}

int main(int words, char **word)
{
    if (words != 4) {
        fputs("figures S1|S2 changed|everything POINTS\n", stderr);
        return 2;
    }
    int is_first = strcmp(word[1], "S1") == 0, is_changed = strcmp(word[2], "changed") == 0;
    void (*sweep)(struct counts *) = is_first ? (is_changed ? desargues : all_desargues)
                                              : (is_changed ? pappus : all_pappus);
    uint64_t points = strtoull(word[3], NULL, 10);
    struct counts counts = {0, 0};
    while (counts.points < points)
        sweep(&counts);
    printf("%s %s: %llu points, %llu failed\n", word[1], word[2],
           (unsigned long long)counts.points, (unsigned long long)counts.failed);
}
