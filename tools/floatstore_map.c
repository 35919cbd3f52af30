/* map: a picture of the ring, in characters or as SVG. */
#define _XOPEN_SOURCE 700
#include "floatstore_tool.h"
#include <math.h>
#include <string.h>

static const struct {
    char kind;
    const char *colour, *words;
} legend[] = {
    {LIVE, "#1b7f5c", "a value that its key has"},
    {OLD, "#a9d5c3", "an older value"},
    {NOTE, "#e0a030", "a note of a deletion"},
    {SEAL, "#3b4a6b", "a seal"},
    {BLANK, "#f2f2ee", "blank"},
    {SPOILT, "#c8364a", "cut short"},
    {OTHER, "#9a6fb0", "sound, but no record"},
};
enum { LEGEND = sizeof legend / sizeof legend[0] };

static void print_map(const struct reading *r) {
    size_t across = r->blocks <= 64 ? 1 : 8;
    for (size_t b = 0; b < r->blocks; b++) {
        if (b % across == 0) printf("%4zu  ", b);
        for (size_t j = 0; j < 16; j++) putchar(r->kinds[16 * b + j]);
        const char *role = block_role(r, image.chip, b);
        if (across == 1) printf("%s%s\n", *role ? "  " : "", role);
        else fputs(b % across == across - 1 || b + 1 == r->blocks ? "\n" : " ", stdout);
    }
    if (across > 1 && r->is_ring) printf("head %zu, spare %zu, oldest %zu\n", r->head, r->spare, r->oldest);
    for (size_t i = 0; i < LEGEND; i++) printf("%s%c %s", i ? ", " : "", legend[i].kind, legend[i].words);
    printf("\n");
}

static const char *colour_of(char kind) {
    for (size_t i = 0; i < LEGEND; i++)
        if (legend[i].kind == kind) return legend[i].colour;
    return "#000000";
}

/* A cell of the ring: block b at its angle, page 0 inside and page 15, the seal, outside. */
static void draw_cell(FILE *out, const struct reading *r, size_t b, size_t j) {
    const double turn = 6.283185307179586, gap = 0.06;
    double from = turn * ((double)b + gap) / (double)r->blocks, to = turn * ((double)b + 1 - gap) / (double)r->blocks;
    double inner = 120 + 14.0 * (double)j, outer = inner + 13;
    fprintf(out, "<path fill=\"%s\" d=\"M%.1f %.1fA%.1f %.1f 0 0 1 %.1f %.1fL%.1f %.1fA%.1f %.1f 0 0 0 %.1f %.1fZ\"/>\n", colour_of(r->kinds[16 * b + j]),
            inner * sin(from), -inner * cos(from), inner, inner, inner * sin(to), -inner * cos(to), outer * sin(to), -outer * cos(to), outer, outer,
            outer * sin(from), -outer * cos(from));
}

static void draw_label(FILE *out, const struct reading *r, size_t b) {
    const char *role = block_role(r, image.chip, b);
    double angle = 6.283185307179586 * ((double)b + 0.5) / (double)r->blocks;
    if (strcmp(role, "head") && strcmp(role, "spare") && strcmp(role, "oldest")) return;
    fprintf(out, "<text x=\"%.1f\" y=\"%.1f\" text-anchor=\"%s\" font-weight=\"bold\">%s</text>\n", 358 * sin(angle), -358 * cos(angle) + 5,
            sin(angle) < 0 ? "end" : "start", role);
}

static void draw_number(FILE *out, const struct reading *r, size_t b) {
    double angle = 6.283185307179586 * ((double)b + 0.5) / (double)r->blocks;
    fprintf(out, "<text x=\"%.1f\" y=\"%.1f\" text-anchor=\"middle\" font-size=\"8\" fill=\"#666666\">%zu</text>\n", 110 * sin(angle),
            -110 * cos(angle) + 3, b);
}

static void draw_sheet(FILE *out, int left, int top, int width, int height) {
    fprintf(out, "<svg xmlns=\"http://www.w3.org/2000/svg\" viewBox=\"%d %d %d %d\" font-family=\"sans-serif\" font-size=\"15\">\n", left, top, width,
            height);
    fprintf(out, "<rect x=\"%d\" y=\"%d\" width=\"%d\" height=\"%d\" fill=\"#ffffff\"/>\n", left, top, width, height);
}

/* A line of the legend. */
static void draw_key(FILE *out, int at, int below, const char *colour, const char *words) {
    fprintf(out, "<rect x=\"%d\" y=\"%d\" width=\"11\" height=\"11\" fill=\"%s\" stroke=\"#888888\" stroke-width=\"0.5\"/>", at, below - 10, colour);
    fprintf(out, "<text x=\"%d\" y=\"%d\" font-size=\"12\">%s</text>\n", at + 16, below, words);
}

static void draw_ring(const struct reading *r, FILE *out) {
    draw_sheet(out, -430, -400, 860, 800);
    for (size_t b = 0; b < r->blocks; b++)
        for (size_t j = 0; j < 16; j++) draw_cell(out, r, b, j);
    for (size_t b = 0; b < r->blocks; b++) draw_number(out, r, b);
    for (size_t b = 0; b < r->blocks && r->is_ring; b++) draw_label(out, r, b);
    for (int i = 0; i < LEGEND; i++) draw_key(out, -92, 18 * i - 60, legend[i].colour, legend[i].words);
    fprintf(out, "<text y=\"78\" text-anchor=\"middle\" font-size=\"12\">%zu blocks, %zu of %zu keys</text>\n</svg>\n", r->blocks, r->keys,
            FLOATSTORE_ROOM(r->blocks));
}

/* ---- a large chip: a cell for each block, the darker the more live values it has */

enum { CELL = 14, EDGE = 60, SHADES = 5, SMALL = 64 };

static const struct {
    size_t most; /* live values */
    const char *colour, *words;
} shades[SHADES] = {
    {0, "#d9dcd4", "written, none live"}, {3, "#bfe3d2", "1 to 3 live values"}, {7, "#7cc4a3", "4 to 7"},
    {11, "#3d9a75", "8 to 11"},           {15, "#0f5c40", "12 to 15"},
};

static size_t kind_count(const struct reading *r, size_t b, char kind) {
    size_t n = 0;
    for (size_t j = 0; j < 16; j++) n += r->kinds[16 * b + j] == kind;
    return n;
}

static const char *heat_of(const struct reading *r, size_t b) {
    if (kind_count(r, b, BLANK) == 16) return colour_of(BLANK);
    size_t live = kind_count(r, b, LIVE), i = 0;
    while (shades[i].most < live) i++;
    return shades[i].colour;
}

static int column(size_t b, size_t across) { return EDGE + CELL * (int)(b % across); }
static int row(size_t b, size_t across) { return EDGE + CELL * (int)(b / across); }

/* Neighbours of one colour are one bar with white lines over it, so that the file stays small. */
static void draw_bars(FILE *out, const struct reading *r, size_t across) {
    for (size_t b = 0, end; b < r->blocks; b = end) {
        const char *heat = heat_of(r, b);
        for (end = b + 1; end < r->blocks && end % across && strcmp(heat_of(r, end), heat) == 0;) end++;
        fprintf(out, "<rect x=\"%d\" y=\"%d\" width=\"%d\" height=\"%d\" fill=\"%s\"/>\n", column(b, across), row(b, across), CELL * (int)(end - b), CELL,
                heat);
    }
    for (size_t c = 0; c <= across; c++) {
        int at = EDGE + CELL * (int)c;
        fprintf(out, "<path stroke=\"#ffffff\" d=\"M%d %dV%d\"/>\n", at, EDGE, row(r->blocks - 1, across) + CELL);
    }
    for (size_t b = 0; b < r->blocks; b += across)
        fprintf(out, "<path stroke=\"#ffffff\" d=\"M%d %dH%d\"/>\n", EDGE, row(b, across), EDGE + CELL * (int)across);
}

/* A dot where a page of the block is spoilt. */
static void draw_dots(FILE *out, const struct reading *r, size_t across) {
    for (size_t b = 0; b < r->blocks; b++)
        if (kind_count(r, b, SPOILT))
            fprintf(out, "<circle cx=\"%d\" cy=\"%d\" r=\"3\" fill=\"%s\"/>\n", column(b, across) + CELL / 2, row(b, across) + CELL / 2, colour_of(SPOILT));
}

/* The first block of each row, and which of the row each eighth column is. */
static void draw_numbers(FILE *out, const struct reading *r, size_t across) {
    const char *form = "<text x=\"%d\" y=\"%d\" text-anchor=\"%s\" font-size=\"11\" fill=\"#444444\">%s%zu</text>\n";
    for (size_t b = 0; b < r->blocks; b += across) fprintf(out, form, EDGE - 6, row(b, across) + CELL - 3, "end", "", b);
    for (size_t c = 0; c < across; c += 8) fprintf(out, form, column(c, across) + CELL / 2, EDGE - 6, "middle", "+", c);
}

static void draw_frames(FILE *out, const struct reading *r, size_t across, int below) {
    const struct {
        const char *name, *colour;
        size_t block;
    } roles[] = {{"head", "#d03a00", r->head}, {"spare", "#7a3fb0", r->spare}, {"oldest", "#0b57d0", r->oldest}};
    for (size_t i = 0; i < 3 && r->is_ring; i++) {
        if (!r->later && i > 0) break;
        fprintf(out, "<rect x=\"%d\" y=\"%d\" width=\"%d\" height=\"%d\" fill=\"none\" stroke=\"%s\" stroke-width=\"3\"/>\n",
                column(roles[i].block, across), row(roles[i].block, across), CELL, CELL, roles[i].colour);
        fprintf(out, "<text x=\"%d\" y=\"%d\" font-size=\"13\" font-weight=\"bold\" fill=\"%s\">%s: block %zu</text>\n", EDGE + 150 * (int)i, below,
                roles[i].colour, roles[i].name, roles[i].block);
    }
}

static void draw_heat(const struct reading *r, FILE *out) {
    size_t across = r->blocks <= 1024 ? 32 : 64;
    int below = row(r->blocks - 1, across) + CELL + 28, width = CELL * (int)across;
    draw_sheet(out, 0, 0, 2 * EDGE + width, below + 110);
    fprintf(out, "<text x=\"%d\" y=\"26\" font-weight=\"bold\">%zu blocks, %zu of %zu keys%s</text>\n", EDGE, r->blocks, r->keys,
            FLOATSTORE_ROOM(r->blocks), r->is_ring ? "" : ": no ring, so no value is known to be live");
    draw_bars(out, r, across);
    draw_dots(out, r, across);
    draw_numbers(out, r, across);
    draw_frames(out, r, across, below);
    for (int i = 0; i < SHADES; i++) draw_key(out, EDGE + width / 3 * (i % 3), below + 26 + 20 * (i / 3), shades[i].colour, shades[i].words);
    draw_key(out, EDGE + width / 3 * 2, below + 46, colour_of(BLANK), "blank");
    fprintf(out, "<circle cx=\"%d\" cy=\"%d\" r=\"3\" fill=\"%s\"/>", EDGE + 5, below + 62, colour_of(SPOILT));
    fprintf(out, "<text x=\"%d\" y=\"%d\" font-size=\"12\">a page was cut short or is spoilt</text>\n</svg>\n", EDGE + 16, below + 66);
}

void do_map(int argc, char **argv) {
    struct reading r;
    char *text = NULL;
    size_t len = 0;
    (void)argc;
    load(argv[2], TO_READ);
    read_image(&r);
    if (!option.svg) {
        print_map(&r);
        return;
    }
    FILE *out = open_memstream(&text, &len);
    if (!out) die(REFUSED, "no memory");
    if (r.blocks <= SMALL) draw_ring(&r, out);
    else draw_heat(&r, out);
    if (fclose(out) != 0) die(REFUSED, "no memory");
    if (strcmp(option.svg, "-") == 0) fwrite(text, 1, len, stdout);
    else save_picture(option.svg, text, len);
}
