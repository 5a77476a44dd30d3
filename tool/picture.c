/* The lag of each key over a song, and the sound around its first keys, sample by sample, as an SVG picture. */
#include <math.h>
#include <stdarg.h>
#include "play.h"

enum { WIDE = 1000, LEFT = 70, RIGHT = 980, TOP = 100, LOW = 240, VIEW_TOP = 330, VIEW_HIGH = 150, VIEW_STEP = 216 };

static void draw(out *o, const char *format, ...) {
    char text[512];
    va_list values;
    va_start(values, format);
    int length = vsnprintf(text, sizeof text, format, values);
    va_end(values);
    out_put(o, text, length < (int)sizeof text ? (size_t)length : sizeof text - 1);
}

static void rule(out *o, const char *class, double x1, double y1, double x2, double y2) {
    draw(o, "<line class=\"%s\" x1=\"%.1f\" y1=\"%.1f\" x2=\"%.1f\" y2=\"%.1f\"/>\n", class, x1, y1, x2, y2);
}

static void text(out *o, const char *class, double x, double y, const char *format, ...) {
    char words[256];
    va_list values;
    va_start(values, format);
    vsnprintf(words, sizeof words, format, values);
    va_end(values);
    draw(o, "<text class=\"%s\" x=\"%.1f\" y=\"%.1f\">%s</text>\n", class, x, y, words);
}

static void head(out *o, const lag_picture *p, double high) {
    draw(o, "<svg xmlns=\"http://www.w3.org/2000/svg\" width=\"%d\" height=\"%.0f\" ", WIDE, high);
    draw(o, "viewBox=\"0 0 %d %.0f\" font-family=\"sans-serif\">\n<style>\n", WIDE, high);
    draw(o, "text{font-size:13px;fill:#222} .title{font-size:18px;font-weight:bold}\n");
    draw(o, ".end{text-anchor:end} .mid{text-anchor:middle} .red{fill:#c0392b} .dot{fill:#2b6ca3}\n");
    draw(o, ".axis{stroke:#222;stroke-width:1} .grid{stroke:#ddd;stroke-width:1} .stem{stroke:#2b6ca3;stroke-width:1.5}\n");
    draw(o, ".due{stroke:#c0392b;stroke-width:1.5;stroke-dasharray:5 3} .heard{fill:#e08214;stroke:#222}\n</style>\n");
    draw(o, "<rect width=\"100%%\" height=\"100%%\" fill=\"#fff\"/>\n");
    text(o, "title", LEFT, 30, "%zu keys, lag %lld samples at most", p->count, (long long)p->most);
    if (p->block == 1) text(o, "", LEFT, 52, "Each run of frames is cut at the next key.");
    else text(o, "", LEFT, 52, "Keys are started only between blocks of %zu frames.", p->block);
}

/* A step of 1, 2 or 5 times a power of ten, of which at most so many make the range. */
static double step_of(double range, double most) {
    double step = pow(10, floor(log10(range / most)));
    while (range / step > most) step *= range / (2 * step) <= most ? 2 : range / (5 * step) <= most ? 5 : 10;
    return step;
}

static void lags(out *o, const lag_picture *p) {
    double top = p->most < 8 ? 8 : (double)p->most, end = 1;
    for (size_t i = 0; i < p->count; i++) end = fmax(end, (double)p->keys[i].due);
    double seconds = end / p->rate, step = step_of(top, 5), across = step_of(seconds, 10);
    text(o, "", LEFT, TOP - 12, "The lag of each key, in samples:");
    for (double y = 0; y <= top; y += step) {
        double at = LOW - y / top * (LOW - TOP);
        rule(o, y > 0 ? "grid" : "axis", LEFT, at, RIGHT, at);
        text(o, "end", LEFT - 8, at + 4, "%g", y);
    }
    for (double x = 0; x <= seconds * 1.0001; x += across) {
        double at = LEFT + x / seconds * (RIGHT - LEFT);
        rule(o, "axis", at, LOW, at, LOW + 5);
        text(o, "mid", at, LOW + 20, "%g s", x);
    }
    for (size_t i = 0; i < p->count; i++) {
        const key *k = &p->keys[i];
        if (k->heard == NEVER) continue;
        draw(o, "<circle class=\"dot\" cx=\"%.1f\" cy=\"%.1f\" r=\"3.5\"/>\n",
            LEFT + (double)k->due / end * (RIGHT - LEFT), LOW - (double)k->late / top * (LOW - TOP));
    }
}

/* One view, at a place of its own: its samples from the middle line, the key's own instant, and the sample in which
 * it is heard. */
typedef struct { const view *view; double left, top, wide, scale; } frame_of_view;

static double x_of(const frame_of_view *f, double frame) {
    return f->left + (frame - (double)f->view->from + 0.5) * f->wide / (double)f->view->frames;
}

static double y_of(const frame_of_view *f, double value) { return f->top + VIEW_HIGH / 2.0 * (1 - value / f->scale); }

static double scale_of(const view *v) {
    double most = 1e-9;
    for (size_t i = 0; i < v->frames; i++) most = fmax(most, fabs((double)v->sound[i]));
    return 1.1 * most;
}

static void samples(out *o, const frame_of_view *f) {
    const view *v = f->view;
    for (size_t i = 0; i < v->frames; i++) {
        double at = (double)(v->from + i), x = x_of(f, at), y = y_of(f, (double)v->sound[i]);
        int is_heard = v->key.heard == (int64_t)(v->from + i);
        rule(o, "stem", x, y_of(f, 0), x, y);
        draw(o, "<circle class=\"%s\" cx=\"%.1f\" cy=\"%.1f\" r=\"%s\"/>\n", is_heard ? "heard" : "dot", x, y,
            is_heard ? "4" : "2");
    }
}

static void view_drawn(out *o, const frame_of_view *f) {
    const key *k = &f->view->key;
    double due = x_of(f, (double)k->due);
    text(o, "", f->left, f->top - 22, "note %d at frame %llu", k->note, (unsigned long long)k->due);
    if (k->heard == NEVER) text(o, "", f->left + 190, f->top - 22, "never heard");
    else
        text(o, "", f->left + 190, f->top - 22, "heard in frame %lld: lag %lld", (long long)k->heard,
            (long long)k->late);
    rule(o, "axis", f->left, y_of(f, 0), f->left + f->wide, y_of(f, 0));
    rule(o, "due", due, f->top, due, f->top + VIEW_HIGH);
    text(o, "mid red", due, f->top - 5, "due");
    samples(o, f);
}

void picture_written(const char *name, const lag_picture *p) {
    out o = out_opened(name);
    size_t rows = (p->view_count + 1) / 2;
    head(&o, p, VIEW_TOP + (double)rows * VIEW_STEP - 20);
    lags(&o, p);
    if (rows > 0) text(&o, "", LEFT, VIEW_TOP - 28, "The sound around the first keys, sample by sample. %s",
        "Red: the frame that the file gives. Orange: the key is heard.");
    for (size_t i = 0; i < p->view_count; i++) {
        frame_of_view f = { &p->views[i], i % 2 == 0 ? LEFT : 545, VIEW_TOP + 24 + (double)(i / 2) * VIEW_STEP, 435,
            scale_of(&p->views[i]) };
        view_drawn(&o, &f);
    }
    draw(&o, "</svg>\n");
    out_closed(&o);
}
