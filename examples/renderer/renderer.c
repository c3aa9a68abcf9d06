/* The renderer of renderer.py in C: reads a scene's own text, and writes its depths as floats (PFM).
   cc -O2 -o renderer renderer.c -lm && ./renderer SCENE OUT */
#include <math.h>
#include <stdio.h>
#include <stdlib.h>
#include <string.h>

struct plane { char kind; double a, b, c; };
struct solid { char name[33]; int planes; struct plane plane[4096]; double first, end; };

static struct solid solids[256];
static int width, height, bits, fraction, count;
static char show[1 << 16];

static void read_line(char *line)
{
    char word[16] = "", *comment = strchr(line, '#');
    if (comment) *comment = 0;
    sscanf(line, "%15s", word);
    if (!strcmp(word, "picture")) sscanf(line, "%*s %d %d", &width, &height);
    else if (!strcmp(word, "depth")) sscanf(line, "%*s %d %d", &bits, &fraction);
    else if (!strcmp(word, "solid")) sscanf(line, "%*s %32s", solids[count++].name);
    else if (!strcmp(word, "show")) strcpy(show, strstr(line, "show") + 4);
    else if (!strcmp(word, "front") || !strcmp(word, "back") || !strcmp(word, "side")) {
        struct plane *p = &solids[count - 1].plane[solids[count - 1].planes++];
        p->kind = word[0];
        sscanf(line, "%*s %lf %lf %lf", &p->a, &p->b, &p->c);
    }
}

/* Where the ray of a pixel enters and leaves a solid; nowhere, if it misses it. */
static void cross(struct solid *s, int x, int y)
{
    s->first = 0, s->end = ldexp(1, bits) - 1;
    for (int i = 0; i < s->planes; i++) {
        const struct plane *p = &s->plane[i];
        double depth = ldexp(p->a * x + p->b * y + p->c, -fraction);
        if (p->kind == 'f') s->first = fmax(s->first, depth);
        if (p->kind == 'b') s->end = fmin(s->end, depth);
        if (p->kind == 's' && depth < 0) s->end = -1;
    }
}

/* Whether a depth is inside of the expression that begins at *at; *at moves past it. */
static int inside(const char **at, double z)
{
    while (**at == ' ') ++*at;
    if (**at != '(') {
        size_t length = strcspn(*at, " ()+-*^\r\n"), i = 0;
        while (strncmp(solids[i].name, *at, length) || solids[i].name[length]) i++;
        *at += length;
        return solids[i].first <= z && z < solids[i].end;
    }
    ++*at;
    int left = inside(at, z);
    while (**at == ' ') ++*at;
    char sign = *(*at)++;
    int right = inside(at, z);
    while (**at != ')') ++*at;
    ++*at;
    return sign == '+' ? left | right : sign == '*' ? left & right : sign == '-' ? left & !right : left ^ right;
}

static float pixel(int x, int y)
{
    double far = ldexp(1, bits) - 1, nearest = INFINITY;
    for (int i = 0; i < count; i++) cross(&solids[i], x, y);
    for (int i = -1; i < 2 * count; i++) {
        double z = i < 0 ? 0 : i % 2 ? solids[i / 2].end : solids[i / 2].first;
        const char *at = show;
        if (z >= 0 && z < nearest && z < far && inside(&at, z)) nearest = z;
    }
    return nearest;
}

int main(int argc, char **argv)
{
    static char line[1 << 16];
    FILE *in = argc == 3 ? fopen(argv[1], "r") : NULL, *out = in ? fopen(argv[2], "wb") : NULL;
    if (!out) return fprintf(stderr, "use: renderer SCENE OUT\n"), 2;
    while (fgets(line, sizeof line, in)) read_line(line);
    fprintf(out, "Pf\n%d %d\n-1.0\n", width, height);
    for (int y = height - 1; y >= 0; y--)
        for (int x = 0; x < width; x++) {
            float depth = pixel(x, y);
            fwrite(&depth, sizeof depth, 1, out);
        }
    return fclose(out) ? 1 : 0;
}
