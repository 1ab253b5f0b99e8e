/* libFuzzer: telemetry. A builder's frames, or any octets with their FECF set, go to an extractor frame by frame and to
 * sedge_tm_extractor_frames in one call: both have to say the same; and of undamaged frames come just the packets queued. */
#include "sedgechisel.h"
#include "octets.h"

static void built(struct in *i) {
    struct sedge_tm_builder b;
    struct sedge_tm_extractor e = {0, 0, 0, 0};
    size_t length = 16 + in16(i) % 200, room = in16(i) % 2000, queued = 0, got = 0, mroom = in16(i) % 3000;
    static uint8_t put[70000], take[70000];
    if (sedge_tm_builder_open(&b, 1, 0, length)) return;
    uint8_t *memory = malloc(room + 1), *em = malloc(mroom + 1), *out = malloc(length);
    bool lost = false;
    for (int left = 200; i->left && left > 0; left--) {
        if (in8(i) & 1) {
            size_t n = 7 + in8(i) * (in8(i) % 4);
            uint8_t *p = in_octets(i, n);
            if (in8(i) & 7) {
                p[0] &= 0x17;
                p[1] &= 0x7f;
                p[4] = (uint8_t)((n - 7) >> 8);
                p[5] = (uint8_t)(n - 7);
            }
            struct sedge_tm_builder was = b;
            uint8_t a = sedge_tm_builder_queue(&b, p, n, memory, room);
            if (a == 0 && queued + n < sizeof put) {
                memcpy(put + queued, p, n);
                queued += n;
            } else if (a)
                WANT(!memcmp(&was, &b, sizeof b));
            free(p);
        } else {
            uint8_t ocf[4] = {1, 0, 0, 0};
            size_t total = 0;
            struct sedge_tm_frame f;
            struct sedge_part d;
            struct sedge_tm_extracted x;
            WANT(sedge_tm_builder_build(&b, ocf, 4, memory, room, out, length, &total) == 0 && total == length);
            WANT(sedge_tm_decode(out, length, length, &f, &d) == 0);
            uint8_t *data = malloc(d.count);
            memcpy(data, out + d.from, d.count);
            if (sedge_tm_extractor_frame(&e, &f, data, d.count, em, mroom, &x))
                lost = true;
            else {
                if (x.joined) {
                    WANT(got + x.joined < sizeof take);
                    memcpy(take + got, em, x.joined);
                    got += x.joined;
                }
                struct sedge_part p = x.packets;
                while (sedge_tm_packet(data, d.count, &p)) {
                    memcpy(take + got, data + p.from, p.count);
                    got += p.count;
                }
            }
            free(data);
        }
    }
    if (!lost) WANT(got <= queued && !memcmp(put, take, got));
    free(memory);
    free(em);
    free(out);
}

static void any(struct in *i) {
    size_t length = 16 + in16(i) % 200, mroom = in16(i) % 3000, oroom = in16(i) % 600, proom = in16(i) % 8000,
           total = 0;
    struct sedge_tm_extractor e = {0, 0, 0, 0}, g = e;
    if (in8(i) & 1) {
        e.seen = in8(i) % 3;
        e.from = in16(i) % 100;
        e.count = in16(i) % 100;
        e.last = in8(i);
        g = e;
    }
    uint8_t set = in8(i);
    size_t count = i->left;
    uint8_t *o = in_octets(i, count), *m = malloc(mroom + 1), *m2 = malloc(mroom + 1), *out = malloc(oroom + 1),
            *packets = malloc(proom + 1);
    memset(m, 0, mroom + 1);
    memset(m2, 0, mroom + 1);
    uint8_t c = 0;
    for (size_t at = 0; at + length <= count; at += length) {
        if (set & 1) {
            o[at] &= 0x3f;
            o[at + 1] |= 1;
            o[at + 4] = (uint8_t)(0x18 | (o[at + 4] & 7));
        }
        if (set & 2) o[at + 3] = c++;
        if (set & 4) {
            o[at + 4] &= 0xf8;
            o[at + 5] = (uint8_t)(o[at + 5] % (length - 12));
        }
        if (set & 8) (void)!sedge_check_append(o + at, length);
    }
    size_t n = sedge_tm_extractor_frames(&e, o, count, length, m, mroom, out, oroom, packets, proom, &total), at = 0;
    WANT(n <= oroom / 19 && n <= count / length && total <= proom);
    for (size_t r = 0; r < n; r++) {
        const uint8_t *x = out + 19 * r;
        struct sedge_tm_frame f = {0};
        struct sedge_part d = {0, 0};
        struct sedge_tm_extracted y = {0};
        size_t sum = 0;
        uint8_t a = sedge_tm_decode(o + r * length, length, length, &f, &d);
        if (a == 0) {
            a = sedge_tm_extractor_frame(&g, &f, o + r * length + d.from, d.count, m2, mroom, &y);
            if (a == 0) {
                WANT(y.first == x[5] && y.lost == x[6]);
                if (y.joined) {
                    WANT(at + y.joined <= total && !memcmp(packets + at, m2, y.joined));
                    at += y.joined;
                    sum += y.joined;
                }
                struct sedge_part p = y.packets;
                while (sedge_tm_packet(o + r * length + d.from, d.count, &p)) {
                    WANT(at + p.count <= total && !memcmp(packets + at, o + r * length + d.from + p.from, p.count));
                    at += p.count;
                    sum += p.count;
                }
            }
        }
        WANT(a == x[4] && sum == (size_t)(x[0] | x[1] << 8 | x[2] << 16));
    }
    WANT(at == total && !memcmp(&e, &g, sizeof e));
    if (e.from <= mroom && e.count <= mroom - e.from) WANT(!memcmp(m + e.from, m2 + e.from, e.count));
    free(o);
    free(m);
    free(m2);
    free(out);
    free(packets);
}

/* Any builder and any memory. */
static void damaged(struct in *i) {
    struct sedge_tm_builder b;
    size_t room = in16(i) % 300, oroom = in16(i) % 2100, total = 0;
    for (size_t j = 0; j < sizeof b; j++) ((uint8_t *)&b)[j] = 0;
    b.from = in16(i) % 320;
    b.count = in16(i) % 320;
    b.begun = in16(i) % 100;
    b.scid = in16(i) % 1026;
    b.length = in16(i) % 2060;
    b.vcid = in8(i) % 9;
    b.next_count = in8(i);
    b.idle_left = in8(i) % 8;
    uint8_t *memory = in_octets(i, room), *out = malloc(oroom + 1), ocf[4] = {1, 2, 3, 4};
    struct sedge_tm_builder was = b;
    uint8_t a = sedge_tm_builder_build(&b, ocf, in8(i) % 6 ? 4 : 3, memory, room, out, oroom, &total);
    if (a)
        WANT(!memcmp(&was, &b, sizeof b));
    else {
        struct sedge_tm_frame f;
        struct sedge_part d;
        WANT(total == b.length && sedge_tm_decode(out, total, total, &f, &d) == 0);
        WANT(sedge_tm_builder_build(&b, ocf, 4, memory, room, out, oroom, &total) != SEDGE_WRONG_COUNT);
    }
    free(memory);
    free(out);
}

int LLVMFuzzerTestOneInput(const uint8_t *data, size_t size) {
    struct in i = {data, size};
    switch (in8(&i) % 3) {
    case 0: built(&i); break;
    case 1: any(&i); break;
    default: damaged(&i); break;
    }
    return 0;
}
