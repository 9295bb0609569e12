/* The store's step and pass written by hand in C, with the same checks, for the benchmark. The same ten bytes on standard
   input as crates/meter: units, width, 0 for step or 1 for pass, the unit, rounds, count, the page. */
#include <stdint.h>
#include <stdio.h>
#include <string.h>

enum { OK = 1, A = 2, B = 4 };
enum phase { COLD, READY, WRITING, RECOVERING };
enum direction { A_TO_B, B_TO_A };

struct plan { uint16_t count; uint16_t widths[8]; uint16_t page; };

struct device {
    struct plan plan;
    uint8_t payload[256];
    enum phase phase;
    uint16_t unit, made;
    enum direction direction;
    uint32_t stores;
};

struct answer { struct device device; uint16_t number; };

/* a copy is whole pages */
static uint32_t copy_of(uint32_t width, uint32_t page) { return (width + page - 1) & -page; }

static size_t base_of(const struct plan *plan, uint16_t unit) {
    size_t sum = 0;
    for (uint16_t i = 0; i < unit; i++) sum += plan->page + 2 * copy_of(plan->widths[i], plan->page);
    return sum;
}

static void clean_up_from(struct device *d, const uint8_t *image, uint16_t from) {
    size_t at = base_of(&d->plan, from);
    for (uint16_t u = from; u < d->plan.count; u++) {
        if (image[at] != OK) {
            d->phase = RECOVERING;
            d->unit = u;
            d->made = 0;
            d->direction = image[at] == A ? B_TO_A : A_TO_B;
            return;
        }
        at += d->plan.page + 2 * copy_of(d->plan.widths[u], d->plan.page);
    }
    d->phase = READY;
}

static void store_cleanup(const struct device *d, uint8_t *unit, size_t w) {
    size_t n = d->made, a = d->plan.page, b = a + copy_of(w, d->plan.page);
    if (n >= w) unit[0] = OK;
    else if (d->direction == A_TO_B) unit[b + n] = unit[a + n];
    else unit[a + n] = unit[b + n];
}

/* in place: what a pass does; one walk over the widths, no test twice */
__attribute__((noinline)) uint16_t pass(struct device *d, uint8_t *image, size_t length) {
    uint32_t count = d->plan.count, page = d->plan.page, u = d->unit, base = 0, total = 0;
    if (count == 0 || count > 8) return 1;
    for (uint32_t i = 0; i < count; i++) {
        uint32_t w = d->plan.widths[i];
        if (w == 0 || w > 256) return 2;
        if (i == u) base = total;
        total += page + 2 * copy_of(w, page);
    }
    if (page != 1 && page != 4 && page != 8 && page != 16) return 17;
    if (length < total) return 3;
    if (d->phase == COLD || d->phase == READY) return 5;
    if (u >= count) return 4;
    uint32_t w = d->plan.widths[u], n = d->made;
    uint8_t *unit = image + base;
    if (d->phase == WRITING) {
        int last = 0;
        if (n <= w) { if (n == 0) unit[0] = A; else unit[page + n - 1] = d->payload[n - 1]; }
        else if (n <= 2 * w + 1) {
            if (n == w + 1) unit[0] = B;
            else unit[page + copy_of(w, page) + n - (w + 2)] = d->payload[n - (w + 2)];
        }
        else if (n == 2 * w + 2) { unit[0] = OK; last = 1; }
        else return 4;
        if (d->stores < UINT32_MAX) d->stores++;
        d->made++;
        if (last) d->phase = READY;
    } else {
        if (n > w) return 4;
        if (d->stores < UINT32_MAX) d->stores++;
        store_cleanup(d, unit, w);
        if (++d->made == w + 1) clean_up_from(d, image, d->unit + 1);
    }
    return 0;
}

/* by value: the device whole in, and the next one out */
__attribute__((noinline)) struct answer step(struct device d, uint8_t *image, size_t length) {
    struct answer r;
    r.device = d;
    r.number = pass(&r.device, image, length);
    return r;
}

__attribute__((noinline)) static struct device begin(struct device d, uint16_t unit, const uint8_t *payload, size_t size) {
    memset(d.payload, 0, 256);
    memcpy(d.payload, payload, size);
    d.phase = WRITING;
    d.unit = unit;
    d.made = 0;
    return d;
}

int main(void) {
    uint8_t asked[10], image[4224] = {0}, payload[256];
    if (fread(asked, 1, 10, stdin) != 10) return 1;
    memset(payload, 'x', sizeof payload);
    struct device formatted = {0};
    uint16_t width = asked[1] | asked[2] << 8, unit = asked[4];
    uint16_t rounds = asked[5] | asked[6] << 8, count = asked[7] | asked[8] << 8;
    formatted.plan.count = asked[0];
    for (int i = 0; i < 8; i++) formatted.plan.widths[i] = width;
    formatted.plan.page = asked[9];
    formatted.phase = READY;
    for (uint16_t i = 0; i < asked[0]; i++) image[base_of(&formatted.plan, i)] = OK;
    for (uint16_t round = 0; round < rounds; round++) {
        struct device held = begin(formatted, unit, payload, width);
        for (uint16_t made = 0; made < count; made++) {
            if (asked[3]) {
                pass(&held, image, sizeof image);
            } else {
                struct answer r = step(held, image, sizeof image);
                held = r.device;
            }
        }
    }
    fwrite(image + base_of(&formatted.plan, unit) + formatted.plan.page, 1, width, stdout);
    puts("");
    return 0;
}
