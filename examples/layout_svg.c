/*
 * layout_svg.c - draws, as SVG on standard output, what stands where after t moves of a growth from n to n + m disks.
 *
 *     layout_svg n m t [T [first [last]]] [--block b] > picture.svg
 *
 * T is the number of stripes, 1 to 1048576: without it one group, n * (n + m). Drawn are the stripes from `first` to `last`,
 * both of them included; without `last`, from `first` (without it, from 0) as many as a group has, or as there are. Each zone
 * has a frame, and so has the tail, the stripes after the last whole group. With m = 0 it is an array before its growth. What
 * stands on a place is asked of pbm_owner, by a record that is written here as pbm.h describes it. So a picture shows what the
 * library answers. Only the total in its title, and where the tail begins, are computed here. Arguments are tested here too, so
 * that the bad one can be named: in one line on standard error, and the exit status is 1.
 *
 * With --block, which comes last, the drawers of block b and of its parity are lit, as pbm_locate tells them: the one place has a
 * red frame, the other a blue one, and two more rows of the legend name their disks. Without `first` the picture begins with the
 * block's group then, or with the tail if the block stands there; with it, the block must be in one of the stripes drawn, as else
 * nothing would be lit.
 */
#include "pbm.h"

#include <ctype.h>
#include <errno.h>
#include <stdio.h>
#include <stdlib.h>
#include <string.h>

/* The stripes of one picture, which is large enough then: the largest group has 512, and the largest array would be gigabytes. */
enum { DRAWN_MAX = 1024 };

/* n old and m new disks, T stripes, t moves done; the stripes drawn; the record of that, and that before the growth */
static unsigned n, m, T, t, first, last;
static uint8_t now[PBM_RECORD_LEN], before[PBM_RECORD_LEN];

/* The block to light, if one is: where it stands, on which disk of that stripe its parity does, and if the block was moved. */
static struct light { int is_asked; unsigned block, stripe, disk, parity_disk, moved; } lit;

static unsigned group(void) { return n * (n + m); }
static unsigned total(void) { return T / group() * n * n * m; }
static unsigned lesser(unsigned a, unsigned b) { return a < b ? a : b; }

/* ---- what stands where */

/* Least byte first. */
static void put(uint8_t *bytes, int count, unsigned value)
{
    for (int i = 0; i < count; i++) bytes[i] = (uint8_t)(value >> (8 * i));
}

/* All other bytes are 0. The block length, 1 here, has no part in the layout. */
static void set_record(uint8_t *record, unsigned new_disks, unsigned moves)
{
    put(record + PBM_AT_N, 1, n);
    put(record + PBM_AT_M, 1, new_disks);
    put(record + PBM_AT_BLOCK_LEN, 2, 1);
    put(record + PBM_AT_STRIPES, 4, T);
    put(record + PBM_AT_MOVES, 4, moves);
}

/* A call that is not refused, for these arguments. */
static void must(const char *call, uint8_t number)
{
    if (number == PBM_DONE) return;
    fprintf(stderr, "layout_svg: %s is refused: %u %s\n", call, number, pbm_word(number));
    exit(1);
}

static unsigned capacity(void)
{
    uint64_t blocks, moves, all, health, out_disk, rebuilt;
    must("status", pbm_status(now, PBM_RECORD_LEN, &blocks, &moves, &all, &health, &out_disk, &rebuilt));
    return (unsigned)blocks;
}

struct owner { uint64_t role, block; };

static struct owner owner_by(const uint8_t *record, unsigned stripe, unsigned disk)
{
    struct owner owner;
    must("owner", pbm_owner(record, PBM_RECORD_LEN, stripe, disk, &owner.role, &owner.block));
    return owner;
}

/* What stands on a disk of a stripe, and the disk on which that stood before the growth: n if on none. */
struct place { unsigned role, block, disk, home; };

static struct place place_at(unsigned stripe, unsigned disk)
{
    struct owner owner = owner_by(now, stripe, disk);
    unsigned home = 0; /* a move stays in its stripe: look there */
    for (; home < n; home++) {
        struct owner old = owner_by(before, stripe, home);
        if (old.role == owner.role && old.block == owner.block) break;
    }
    return (struct place){(unsigned)owner.role, (unsigned)owner.block, disk, home};
}

static int is_new(struct place p) { return p.role == PBM_DATA && p.home == n; }
/* It stood on another disk of its stripe before the growth. */
static int is_moved(struct place p) { return p.home < n && p.home != p.disk; }

/* ---- the arguments */

/* One line, whatever the argument is. */
static void refuse(const char *name, const char *text, unsigned from, unsigned to, const char *why)
{
    char shown[32] = "";
    for (size_t i = 0; i + 1 < sizeof shown && text[i] != '\0'; i++)
        shown[i] = isprint((unsigned char)text[i]) ? text[i] : '?';
    fprintf(stderr, "layout_svg: %s is '%s': it must be a number from %u to %u%s\n", name, shown, from, to, why);
    exit(1);
}

static unsigned argument(const char *name, const char *text, unsigned from, unsigned to, const char *why)
{
    size_t digits = strspn(text, "0123456789");
    errno = 0;
    unsigned long long value = strtoull(text, NULL, 10);
    if (digits == 0 || text[digits] != '\0' || errno != 0 || value < from || value > to) refuse(name, text, from, to, why);
    return (unsigned)value;
}

static void take_growth(int argc, char **argv)
{
    n = argument("n", argv[1], PBM_N_MIN, PBM_N_MAX, "");
    m = argument("m", argv[2], 0, PBM_M_MAX, "");
    T = argc > 4 ? argument("T", argv[4], PBM_STRIPES_MIN, PBM_STRIPES_MAX, "") : group();
    t = argument("t", argv[3], 0, total(), ", n * n * m for each whole group of n * (n + m) stripes");
    set_record(now, m, t);
    set_record(before, 0, 0);
}

static void take_block(const char *text)
{
    unsigned block = argument("block", text, 0, capacity() - 1, ": below the capacity");
    uint64_t stripe, disk, parity_disk, moved;
    must("locate", pbm_locate(now, PBM_RECORD_LEN, block, &stripe, &disk, &parity_disk, &moved));
    lit = (struct light){1, block, (unsigned)stripe, (unsigned)disk, (unsigned)parity_disk, (unsigned)moved};
}

static void take_stripes(int argc, char **argv)
{
    unsigned begin = lit.stripe / group() * group(); /* 0 if no block is lit */
    first = argc > 5 ? argument("first", argv[5], 0, T - 1, ", which is T - 1") : begin;
    last = argc > 6 ? argument("last", argv[6], first, lesser(T - 1, first + DRAWN_MAX - 1),
                               ": below T, and at most 1024 stripes in a picture")
                    : lesser(T - 1, first + group() - 1);
    if (lit.is_asked && (lit.stripe < first || lit.stripe > last)) {
        fprintf(stderr, "layout_svg: block is '%u': it stands in stripe %u, and drawn are stripes %u to %u\n", lit.block,
                lit.stripe, first, last);
        exit(1);
    }
}

static void take(int argc, char **argv)
{
    const char *block = argc > 2 && strcmp(argv[argc - 2], "--block") == 0 ? argv[argc - 1] : NULL;
    if (block != NULL) argc -= 2;
    if (argc < 4 || argc > 7) {
        fprintf(stderr, "usage: layout_svg n m t [T [first [last]]] [--block b] > picture.svg\n");
        exit(1);
    }
    take_growth(argc, argv);
    if (block != NULL) take_block(block);
    take_stripes(argc, argv);
}

/* ---- the picture: disks across, stripes down */

enum { LEFT = 84, TOP = 118, HIGH = 26, GAP = 6, BETWEEN = 18, LEGEND = 230, LEGEND_ROWS = 6, LETTER = 8 };

static unsigned digits(unsigned number) { return (unsigned)snprintf(NULL, 0, "%u", number); }

/* A place has room for the longest number and the note after it. */
static unsigned wide(void) { return 54 + 9 * digits(T * (n + m - 1)); }

/* The room left of the places, for the numbers of zones and stripes. */
static unsigned left(void) { return LEFT + (digits(last) > 3 ? LETTER * (digits(last) - 3) : 0); }

/* In one frame are the stripes of a zone, or those of the tail, which begins after the last whole group; without a growth, all. */
static unsigned zone(void) { return m > 0 ? n + m : T; }
static unsigned tail(void) { return m > 0 ? T / group() * group() : T; }
static unsigned frame_of(unsigned stripe) { return lesser(stripe, tail()) / zone(); }

static unsigned x_of(unsigned disk) { return left() + disk * (wide() + GAP) + (disk < n ? 0 : BETWEEN); }
static unsigned y_of(unsigned stripe)
{
    return TOP + (stripe - first) * (HIGH + GAP) + (frame_of(stripe) - frame_of(first)) * BETWEEN;
}

/* The colour of the frame in a place whose drawer is lit, the block's or its parity's; no other has one. */
static const char *light_at(unsigned stripe, unsigned disk)
{
    if (!lit.is_asked || stripe != lit.stripe) return NULL;
    return disk == lit.disk ? "#d1001f" : disk == lit.parity_disk ? "#0063b2" : NULL;
}

/* A light is a frame inside its place, so that two do not meet. */
#define NOTE "<text x=\"%u\" y=\"17\" font-size=\"10\" text-anchor=\"end\">"
#define LIGHT "<rect x=\"3.5\" y=\"3.5\" width=\"%u\" height=\"%d\" rx=\"1\" fill=\"none\" stroke=\"%s\" stroke-width=\"4\"/>"

static void draw(unsigned x, unsigned y, struct place p, const char *light, const char *title)
{
    const char *fill = p.role == PBM_BLANK ? "none" : p.role == PBM_PARITY ? "#e9b44c" : is_new(p) ? "#cfe7f7" : "#fff";
    const char *edge = p.role == PBM_BLANK ? " stroke-dasharray=\"3 4\"" : is_moved(p) ? " stroke-width=\"3\"" : "";
    printf("<g transform=\"translate(%u,%u)\"><title>%s</title>", x, y, title);
    printf("<rect width=\"%u\" height=\"%d\" rx=\"3\" fill=\"%s\" stroke=\"#000\"%s/>", wide(), HIGH, fill, edge);
    if (p.role == PBM_PARITY) printf("<text x=\"9\" y=\"18\" font-weight=\"bold\">P</text>");
    if (p.role == PBM_DATA) printf("<text x=\"9\" y=\"18\">%u</text>", p.block);
    if (is_new(p)) printf(NOTE "new</text>", wide() - 7);
    if (is_moved(p)) printf(NOTE "from %u</text>", wide() - 7, p.home);
    if (light != NULL) printf(LIGHT, wide() - 7, HIGH - 7, light);
    printf("</g>\n");
}

static void draw_place(unsigned stripe, unsigned disk)
{
    struct place p = place_at(stripe, disk);
    char title[160];
    int len = sprintf(title, "stripe %u, disk %u: ", stripe, disk);
    if (p.role == PBM_BLANK) len += sprintf(title + len, "blank");
    if (p.role == PBM_PARITY) len += sprintf(title + len, "parity");
    if (p.role == PBM_DATA) len += sprintf(title + len, is_new(p) ? "new block %u" : "block %u", p.block);
    if (is_moved(p)) sprintf(title + len, ", from disk %u", p.home);
    draw(x_of(disk), y_of(stripe), p, light_at(stripe, disk), title);
}

/* The name of a zone or of the tail, upright beside its rows: as much of it as has room there, and "tail" always has. */
static void draw_name(unsigned number, int is_tail, int is_cut, unsigned middle, unsigned room)
{
    const char *forms[][3] = {{"zone %u, cut", "zone %u", "%u"}, {"tail, cut", "tail", "tail"}};
    char name[32];
    for (int i = is_cut ? 0 : 1; i < 3; i++)
        if ((unsigned)snprintf(name, sizeof name, forms[is_tail][i], number) * LETTER <= room) break;
    printf("<text transform=\"translate(26,%u) rotate(-90)\" text-anchor=\"middle\">%s</text>\n", middle, name);
}

/* A zone, or the tail, or what of it is among the stripes drawn. */
static void draw_frame(unsigned number)
{
    unsigned begin = number * zone(), end = begin < tail() ? begin + zone() - 1 : T - 1;
    unsigned from = begin > first ? begin : first, to = lesser(end, last);
    unsigned top = y_of(from) - GAP, high = (to - from + 1) * (HIGH + GAP) + GAP;
    printf("<rect x=\"%u\" y=\"%u\" width=\"%u\" height=\"%u\" rx=\"4\" fill=\"#eee\"/>\n", left() - GAP, top,
           x_of(n + m - 1) + wide() + GAP - (left() - GAP), high);
    if (m > 0) draw_name(number, begin == tail(), from > begin || to < end, top + high / 2, high);
    for (unsigned stripe = from; stripe <= to; stripe++) {
        printf("<text x=\"%u\" y=\"%u\" text-anchor=\"end\">%u</text>\n", left() - 16, y_of(stripe) + 18, stripe);
        for (unsigned disk = 0; disk < n + m; disk++) draw_place(stripe, disk);
    }
}

static void draw_heads(void)
{
    printf("<text x=\"14\" y=\"32\" font-size=\"20\" font-weight=\"bold\">%u + %u disks: %u of %u moves done</text>\n",
           n, m, t, total());
    printf("<text x=\"14\" y=\"54\">disks across, stripes down");
    if (last - first + 1 < T) printf(": %u to %u of %u", first, last, T);
    printf("</text>\n");
    printf("<text x=\"%u\" y=\"%u\" text-anchor=\"end\">stripe</text>\n", left() - 16, TOP - 14);
    for (unsigned disk = 0; disk < n + m; disk++) {
        unsigned x = x_of(disk) + wide() / 2;
        printf("<text x=\"%u\" y=\"%u\" text-anchor=\"middle\">disk %u</text>\n", x, TOP - 14, disk);
        if (disk >= n) printf("<text x=\"%u\" y=\"%u\" text-anchor=\"middle\">new</text>\n", x, TOP - 34);
    }
}

static void draw_row(unsigned x, unsigned row, struct place sample, const char *light, const char *words)
{
    unsigned y = TOP + row * (HIGH + GAP);
    draw(x, y, sample, light, "legend");
    printf("<text x=\"%u\" y=\"%u\">%s</text>\n", x + wide() + 10, y + 18, words);
}

static void draw_legend(unsigned x)
{
    struct { struct place sample; const char *words; } rows[LEGEND_ROWS] = {
        {{PBM_DATA, 4, 1, 1}, "a block, not moved"},
        {{PBM_PARITY, 0, 0, 0}, "parity, not moved"},
        {{PBM_DATA, 4, 3, 1}, "a block, moved from disk 1"},
        {{PBM_PARITY, 0, 3, 0}, "parity, moved from disk 0"},
        {{PBM_DATA, 30, 3, n}, "a new block"},
        {{PBM_BLANK, 0, 3, n}, "blank: zeroes"},
    };
    for (unsigned i = 0; i < LEGEND_ROWS; i++) draw_row(x, i, rows[i].sample, NULL, rows[i].words);
}

/* What is lit, as it is drawn, in two rows below the legend. */
static void draw_lit(unsigned x)
{
    unsigned stripe = lit.stripe, disk = lit.disk, parity_disk = lit.parity_disk;
    char words[64];
    sprintf(words, lit.moved ? "block %u, moved to disk %u" : "block %u, on disk %u", lit.block, disk);
    draw_row(x, LEGEND_ROWS, place_at(stripe, disk), light_at(stripe, disk), words);
    sprintf(words, "its parity, on disk %u", parity_disk);
    draw_row(x, LEGEND_ROWS + 1, place_at(stripe, parity_disk), light_at(stripe, parity_disk), words);
}

int main(int argc, char **argv)
{
    if (pbm_version() != PBM_VERSION) {
        fprintf(stderr, "layout_svg: libpbm.a and pbm.h are of two versions\n");
        return 1;
    }
    take(argc, argv);

    unsigned legend = x_of(n + m) + 6 * GAP, width = legend + wide() + LEGEND, rows = LEGEND_ROWS + (lit.is_asked ? 2 : 0);
    unsigned bottom = y_of(last), least = TOP + (rows - 1) * (HIGH + GAP);
    unsigned height = (bottom > least ? bottom : least) + HIGH + 20;
    printf("<svg xmlns=\"http://www.w3.org/2000/svg\" version=\"1.1\" width=\"%u\" height=\"%u\" viewBox=\"0 0 %u %u\" "
           "font-family=\"sans-serif\" font-size=\"14\">\n", width, height, width, height);
    printf("<rect width=\"%u\" height=\"%u\" fill=\"#fff\"/>\n", width, height);
    draw_heads();
    for (unsigned number = frame_of(first); number <= frame_of(last); number++) draw_frame(number);
    draw_legend(legend);
    if (lit.is_asked) draw_lit(legend);
    printf("</svg>\n");
    if (fflush(stdout) != 0 || ferror(stdout)) {
        fprintf(stderr, "layout_svg: the picture cannot be written\n");
        return 1;
    }
    return 0;
}
