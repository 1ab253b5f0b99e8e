/* libFuzzer: the calls of the core on octets of just their length, beside the reference (c/tests/reference.h) where it
 * has the call. What is encoded is decoded to the same, and a call that is refused has changed nothing. */
#include "reference.h"
#include "octets.h"

static void codecs(struct in *i) {
    size_t count = in16(i) % 2200;
    bool checked = in8(i) & 1, fix = in8(i) & 1;
    uint8_t *o = in_octets(i, count);
    if (fix && count >= 5 && count <= 1024) {
        o[2] = R8((o[2] & 0xfc) | (count - 1) >> 8);
        o[3] = R8(count - 1);
    }
    if (fix) (void)!sedge_check_append(o, count);
    WANT(sedge_check(o, count) == ref_crc(o, count));
    struct sedge_tc_frame f = {0}, g = {0};
    struct sedge_part p = {1, 2}, q = {1, 2};
    size_t t = 7, u = 7;
    uint8_t a = sedge_tc_decode(o, count, checked, &f, &p);
    WANT(a == ref_tc_decode(o, count, checked, &g, &q) && p.from == q.from && p.count == q.count);
    if (a == 0) {
        uint8_t *out = room_of(count, 0xa5);
        WANT(f.scid == g.scid && f.vcid == g.vcid && f.kind == g.kind && f.n == g.n && f.flags == g.flags &&
             f.map == g.map);
        WANT(sedge_tc_encode(&f, o + p.from, p.count, checked, out, count, &t) == 0 && t == count &&
             !memcmp(out, o, t));
        if (count > 0) WANT(sedge_tc_encode(&f, o + p.from, p.count, checked, out, count - 1, &u) == SEDGE_TC_ROOM);
        free(out);
    }
    t = u = 7;
    WANT(sedge_tc_declared(o, count, checked, &t) == ref_tc_declared(o, count, checked, &u) && t == u);
    struct sedge_packet k = {0}, l = {0};
    t = u = 7;
    WANT(sedge_packet_declared(o, count, &t) == ref_packet_declared(o, count, &u) && t == u);
    struct sedge_clcw w = {0}, x = {0};
    WANT(sedge_clcw_decode(o, count, &w) == ref_clcw_decode(o, count, &x) && !memcmp(&w, &x, sizeof w));
    if (count == 4) {
        uint8_t y[4] = {0}, z[4] = {0};
        WANT(sedge_clcw_encode(&w, y, 4) == ref_clcw_encode(&x, z, 4) && !memcmp(y, z, 4));
    }
    p = q = (struct sedge_part){1, 2};
    a = sedge_packet_decode(o, count, &k, &p);
    WANT(a == ref_packet_decode(o, count, &l, &q) && p.from == q.from && p.count == q.count);
    if (a == 0) {
        size_t n = p.from + p.count;
        uint8_t *out = room_of(n, 0xa5);
        WANT(sedge_packet_encode(&k, o + p.from, p.count, out, n, &t) == 0 && t == n && !memcmp(out, o, n));
        free(out);
    }
    size_t length = in8(i) & 1 ? count : in16(i);
    struct sedge_tm_frame m = {0}, n = {0};
    p = q = (struct sedge_part){1, 2};
    a = sedge_tm_decode(o, count, length, &m, &p);
    WANT(a == ref_tm_decode(o, count, length, &n, &q) && p.from == q.from && p.count == q.count);
    WANT(m.scid == n.scid && m.pointer == n.pointer && !memcmp(m.ocf, n.ocf, 4));
    if (a == 0) {
        uint8_t *out = room_of(count, 0xa5);
        WANT(sedge_tm_encode(&m, o + p.from, p.count, out, count, &t) == 0 && t == count && !memcmp(out, o, count));
        free(out);
    }
    free(o);
}

/* Any struct and any arguments for a call that writes octets. */
static void encoders(struct in *i) {
    struct sedge_tc_frame f;
    struct sedge_packet k;
    struct sedge_tm_frame m;
    size_t n = in16(i) % 2300, room = in16(i) % 2300, t = 0;
    bool checked = in8(i) & 1;
    for (size_t j = 0; j < sizeof f; j++) ((uint8_t *)&f)[j] = in8(i);
    for (size_t j = 0; j < sizeof k; j++) ((uint8_t *)&k)[j] = in8(i);
    for (size_t j = 0; j < sizeof m; j++) ((uint8_t *)&m)[j] = in8(i);
    uint8_t *o = in_octets(i, n), *out = room_of(room, 0);
    struct sedge_part p;
    struct sedge_tc_frame g;
    struct sedge_packet l;
    struct sedge_tm_frame q;
    if (sedge_tc_encode(&f, o, n, checked, out, room, &t) == 0) {
        WANT(t <= room && t <= 1024 && sedge_tc_decode(out, t, checked, &g, &p) == 0);
        WANT(g.scid == f.scid && g.kind == f.kind &&
             (g.kind == SEDGE_TC_BC || (p.count == n && !memcmp(out + p.from, o, n))));
    }
    if (sedge_packet_encode(&k, o, n, out, room, &t) == 0)
        WANT(t == n + 6 && sedge_packet_decode(out, t, &l, &p) == 0 && p.count == n && l.apid == k.apid &&
             l.count == k.count);
    if (sedge_tm_encode(&m, o, n, out, room, &t) == 0)
        WANT(t == n + 12 && sedge_tm_decode(out, t, t, &q, &p) == 0 && p.count == n && q.pointer == m.pointer &&
             q.scid == m.scid);
    free(o);
    free(out);
}

static void frames(struct in *i) {
    bool checked = in8(i) & 1;
    size_t room = in16(i) % 300, t = 0, count = i->left, at = 0;
    uint8_t fix = in8(i), *o = in_octets(i, count), *out = room_of(room, 0);
    if (fix & 1)
        while (sedge_tc_declared(o + at, count - at, checked, &t) == 0 && t <= count - at) {
            if (checked) (void)!sedge_check_append(o + at, t);
            at += t;
        }
    size_t n = sedge_tc_frames(o, count, checked, out, room, &t), done = 0;
    for (size_t r = 0; r < n; r++) {
        struct sedge_tc_frame f = {0};
        struct sedge_part p;
        size_t len = 0;
        const uint8_t *x = out + 12 * r;
        WANT(sedge_tc_declared(o + done, count - done, checked, &len) == 0 && len == (size_t)(x[0] | x[1] << 8));
        WANT(sedge_tc_decode(o + done, len, checked, &f, &p) == x[2]);
        WANT(f.scid == (x[3] | x[4] << 8) && f.vcid == x[5] && f.kind == x[6] && f.n == x[7] && f.flags == x[8] &&
             f.map == x[9] && f.command == x[10] && f.vr == x[11]);
        done += len;
    }
    WANT(done == t && n <= room / 12);
    free(o);
    free(out);
}

static void cop(struct in *i) {
    struct sedge_farm a;
    struct sedge_fop x, y;
    struct sedge_clcw w;
    uint8_t kind = in8(i), p = in8(i), q = in8(i), m = 0, n = 0;
    uint16_t v = in16(i);
    if (kind & 1) {
        if (sedge_fop_open(&x, p, q, R8(v >> 8), in16(i))) return;
    } else
        for (size_t j = 0; j < sizeof x; j++) ((uint8_t *)&x)[j] = in8(i);
    if (sedge_farm_open(&a, p, q))
        for (size_t j = 0; j < sizeof a; j++) ((uint8_t *)&a)[j] = in8(i);
    struct sedge_farm b = a;
    y = x;
    for (int left = 200; i->left && left > 0; left--) {
        uint8_t op = in8(i) % 14, c = in8(i);
        switch (op) {
        case 0: WANT(sedge_farm_ad(&a, c, left & 1) == ref_farm_ad(&b, c, left & 1)); break;
        case 1: WANT(sedge_farm_bd(&a) == ref_farm_bd(&b)); break;
        case 2: WANT(sedge_farm_unlock(&a) == ref_farm_unlock(&b)); break;
        case 3: WANT(sedge_farm_set_vr(&a, c) == ref_farm_set_vr(&b, c)); break;
        case 4: WANT(sedge_farm_released(&a) == ref_farm_released(&b)); break;
        case 5: WANT(sedge_farm_state(&a) == ref_farm_state(&b)); break;
        case 6:
        case 7: {
            if (sedge_farm_control_word(&a, 2, &w)) break;
            if (op == 7) {
                w.flags = R8(c & 0x38);
                w.value = in8(i);
            }
            WANT(sedge_fop_clcw(&x, 2, &w, &m) == ref_fop_clcw(&y, 2, &w, &n) && m == n);
            break;
        }
        case 8: {
            uint16_t value = in16(i);
            uint8_t d = c % 11;
            WANT(sedge_fop_directive(&x, d, value) == ref_fop_directive(&y, d, value));
            break;
        }
        case 9: WANT(sedge_fop_submit(&x) == ref_fop_submit(&y)); break;
        case 10:
        case 11: WANT(sedge_fop_next(&x, &m) == ref_fop_next(&y, &n) && m == n); break;
        case 12: WANT(sedge_fop_tick(&x) == ref_fop_tick(&y)); break;
        case 13:
            WANT(sedge_fop_accepted_beyond(&x, c, &m) == ref_fop_accepted_beyond(&y, c, &n) && m == n);
            WANT(sedge_accepted_beyond(x.nn, x.vs, c, &m) == ref_accepted_beyond(y.nn, y.vs, c, &n) && m == n);
            break;
        }
        WANT(!memcmp(&a, &b, sizeof a) && !memcmp(&x, &y, sizeof x));
    }
}

static void maps(struct in *i) {
    struct sedge_limits limits = {in16(i), in16(i), in8(i)};
    size_t count = in16(i) % 3000, segments = 0, room = in16(i) % 3000;
    if (limits.part == 0 && count > 0) limits.part = 1;
    uint8_t *o = in_octets(i, count), *memory = room_of(room, 0);
    uint8_t a = sedge_map_count(o, count, &limits, &segments);
    struct sedge_map map = {0, 0, limits.blocking};
    size_t got = 0;
    if (a == 0) {
        for (size_t k = 0; k < segments; k++) {
            uint8_t flags;
            struct sedge_part p;
            struct sedge_taken taken = {0};
            WANT(sedge_map_segment(o, count, &limits, k, &flags, &p) == 0 && p.from + p.count <= count &&
                 p.from == got);
            uint8_t *data = room_of(p.count, 0);
            memcpy(data, o + p.from, p.count);
            WANT(sedge_map_take(&map, flags, data, p.count, memory, room, &taken) == 0);
            if (taken.where == SEDGE_IN_DATA) {
                struct sedge_part q = {0, 0};
                size_t sum = 0;
                while (sedge_map_packet(data, taken.count, &q)) sum += q.count;
                WANT(sum == taken.count && taken.count == p.count);
            }
            if (taken.where == SEDGE_IN_MEMORY)
                WANT(taken.count <= got + p.count && !memcmp(memory, o + got + p.count - taken.count, taken.count));
            if (room >= count) WANT(taken.dropped == 0);
            got += p.count;
            free(data);
        }
        WANT(got == count);
        uint8_t flags;
        struct sedge_part p;
        WANT(sedge_map_segment(o, count, &limits, segments, &flags, &p) == SEDGE_ABSENT);
    }
    free(o);
    /* And any segments. */
    map = (struct sedge_map){in16(i) % (room + 2), in8(i) % 3, in8(i) % 3};
    for (int left = 50; i->left && left > 0; left--) {
        uint8_t flags = in8(i) % 5;
        size_t n = in16(i) % 1100;
        uint8_t *data = in_octets(i, n);
        struct sedge_taken taken = {0};
        struct sedge_map before = map;
        if (sedge_map_take(&map, flags, data, n, memory, room, &taken))
            WANT(!memcmp(&before, &map, sizeof map));
        else
            WANT(map.count <= room && (taken.where != SEDGE_IN_DATA || taken.count == n) &&
                 taken.count <= (n > room ? n : room));
        free(data);
    }
    free(memory);
}

static void gaps(struct in *i) {
    static struct sedge_gap_check check;
    sedge_gap_check_open(&check);
    for (int left = 30; i->left && left > 0; left--) {
        uint16_t a = in16(i), c = in16(i), m = 0, last = a < 2048 ? check.last[a] : 0;
        uint8_t r = sedge_gap_check_see(&check, a, c, &m);
        WANT(r == (a > 2047 || c > 16383 ? SEDGE_PACKET_FIELD_RANGE : last > 16383 ? SEDGE_ABSENT : 0));
        if (r == 0) WANT(m == ((c - last - 1) & 16383));
    }
}

int LLVMFuzzerTestOneInput(const uint8_t *data, size_t size) {
    struct in i = {data, size};
    switch (in8(&i) % 6) {
    case 0: codecs(&i); break;
    case 1: encoders(&i); break;
    case 2: frames(&i); break;
    case 3: cop(&i); break;
    case 4: maps(&i); break;
    default: gaps(&i); break;
    }
    return 0;
}
