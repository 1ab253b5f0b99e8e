/* The limit that tctool is compared with: the lines of its tc, farm, map, check, packets, tm and clcw, by plain C that is
 * written for speed.
 *
 * The file is mapped and no record is copied. Hexadecimal digits are copied in pairs from a table, the FECF takes eight
 * octets in each iteration, the number of a record is kept as digits, and there is one buffer. bench/run compares
 * tctool with it; it is not a model of style: cc -O3 -o limit limit.c. Arguments and status are those of tctool. */
#define _GNU_SOURCE
#include <fcntl.h>
#include <stdint.h>
#include <stdio.h>
#include <stdlib.h>
#include <string.h>
#include <sys/mman.h>
#include <sys/stat.h>
#include <unistd.h>

#define ALWAYS static inline __attribute__((always_inline))

/* ---- what is written */

enum { FULL = 1 << 16, LONGEST = 300000 };

static uint8_t buffer[FULL + LONGEST];
static uint8_t *out = buffer;
static uint16_t pairs[256];     /* an octet as two hexadecimal digits */
static char decimals[256][4];   /* an octet as decimal digits */
static uint8_t decimal_len[256];
static uint8_t number[24];      /* the number of a record, as digits up to the end */
static int number_len;
static int status;

static void flush(void) {
    for (uint8_t *from = buffer; from < out;) {
        ssize_t count = write(STDOUT_FILENO, from, out - from);
        if (count <= 0)
            _exit(3);
        from += count;
    }
    out = buffer;
}

/* Before a line. No line is longer than LONGEST. */
ALWAYS void begin_line(void) {
    if (__builtin_expect(out - buffer >= FULL, 0))
        flush();
}

#define PUT(word) (memcpy(out, word, sizeof(word) - 1), out += sizeof(word) - 1)

static void put_name(const char *name) {
    size_t len = strlen(name);
    memcpy(out, name, len);
    out += len;
}

ALWAYS void put_octet(uint8_t value) {
    memcpy(out, decimals[value], 4);
    out += decimal_len[value];
}

/* At most 16,383. */
ALWAYS void put_short(uint32_t value) {
    if (value < 256) {
        put_octet(value);
        return;
    }
    uint32_t low = value % 1000;
    if (value >= 1000)
        put_octet(value / 1000);
    *out++ = '0' + low / 100;
    *out++ = '0' + low / 10 % 10;
    *out++ = '0' + low % 10;
}

ALWAYS void put_digits(const uint8_t *octets, size_t len) {
    size_t i = 0;
    for (; i + 4 <= len; i += 4) {
        uint64_t eight = pairs[octets[i]] | (uint64_t)pairs[octets[i + 1]] << 16
            | (uint64_t)pairs[octets[i + 2]] << 32 | (uint64_t)pairs[octets[i + 3]] << 48;
        memcpy(out + 2 * i, &eight, 8);
    }
    for (; i < len; i++)
        memcpy(out + 2 * i, &pairs[octets[i]], 2);
    out += 2 * len;
}

ALWAYS void count_record(void) {
    int place = sizeof number - 1;
    while (number[place] == '9')
        number[place--] = '0';
    number[place]++;
    if ((int)sizeof number - place > number_len)
        number_len = sizeof number - place;
}

ALWAYS void put_number(void) {
    const uint8_t *from = number + sizeof number - number_len;
    if (number_len <= 8)
        memcpy(out, from, 8);
    else
        memcpy(out, from, number_len);
    out += number_len;
}

static void put_invalid(int fault, const char *name) {
    begin_line();
    put_number();
    PUT(" invalid ");
    *out++ = '0' + fault;
    *out++ = ' ';
    put_name(name);
    *out++ = '\n';
    status = 1;
}

/* ---- octets */

static uint16_t later[8][256];  /* what an octet adds to the check, this number of octets later */

static void make_tables(void) {
    for (int i = 0; i < 256; i++) {
        uint16_t value = i << 8;
        for (int bit = 0; bit < 8; bit++)
            value = value & 0x8000 ? value << 1 ^ 0x1021 : value << 1;
        later[0][i] = value;
        pairs[i] = "0123456789ABCDEF"[i >> 4] | "0123456789ABCDEF"[i & 15] << 8;
        decimal_len[i] = snprintf(decimals[i], sizeof decimals[i], "%d", i);
    }
    for (int n = 1; n < 8; n++)
        for (int i = 0; i < 256; i++)
            later[n][i] = later[n - 1][i] << 8 ^ later[0][later[n - 1][i] >> 8];
    memset(number, '0', sizeof number);
}

ALWAYS uint32_t two(const uint8_t *octets) {
    return octets[0] << 8 | octets[1];
}

static uint32_t check(const uint8_t *octets, size_t len) {
    uint32_t value = 0xffff;
    for (; len >= 8; octets += 8, len -= 8)
        value = later[7][octets[0] ^ value >> 8] ^ later[6][octets[1] ^ (value & 255)] ^ later[5][octets[2]]
            ^ later[4][octets[3]] ^ later[3][octets[4]] ^ later[2][octets[5]] ^ later[1][octets[6]] ^ later[0][octets[7]];
    while (len--)
        value = (value << 8 & 0xffff) ^ later[0][value >> 8 ^ *octets++];
    return value;
}

ALWAYS int begins_packet(const uint8_t *octets) {
    return octets[0] >> 5 == 0 && (two(octets) & 0xfff) != 0xfff;
}

ALWAYS uint32_t packet_len(const uint8_t *octets) {
    return two(octets + 4) + 7;
}

/* ---- telecommand frames (CCSDS 232.0-B-4, 4.1) */

enum { AD, BD, UNLOCK, SET_VR };

struct frame {
    int kind;
    uint32_t scid;
    uint8_t vcid, n, flags, map, vr;
    const uint8_t *payload;
    uint32_t len;
};

static const char *const fault_names[] = {
    0, "Short", "Version", "ReservedType", "Spare", "Length", "Check", "BypassNumber", "EmptyData", "Command"};

/* The fault's number, or 0. */
ALWAYS int decode(const uint8_t *octets, uint32_t len, int checked, struct frame *frame) {
    uint32_t first = two(octets), second = two(octets + 2);
    int bypass = first >> 13 & 1, control = first >> 12 & 1;
    if (first >> 14)
        return 2;
    if (control && !bypass)
        return 3;
    if (first >> 10 & 3)
        return 4;
    if (checked && check(octets, len - 2) != two(octets + len - 2))
        return 6;
    if (bypass && octets[4])
        return 7;
    const uint8_t *field = octets + 5;
    uint32_t rest = len - 5 - (checked ? 2 : 0);
    if (rest < (control ? 1 : 2))
        return 8;
    frame->scid = first & 1023;
    frame->vcid = second >> 10;
    if (control) {
        if (rest == 1 && field[0] == 0)
            frame->kind = UNLOCK;
        else if (rest == 3 && field[0] == 0x82 && field[1] == 0)
            frame->kind = SET_VR, frame->vr = field[2];
        else
            return 9;
        return 0;
    }
    frame->kind = bypass ? BD : AD;
    frame->n = octets[4];
    frame->flags = field[0] >> 6;
    frame->map = field[0] & 63;
    frame->payload = field + 1;
    frame->len = rest - 1;
    return 0;
}

/* ---- the receiver, whose buffer is free (CCSDS 232.1-B-2, 6.1.8) */

static uint32_t vr, lockout, retransmit, farm_b, half = 127;

enum { ACCEPTED, AHEAD, BEHIND, OUTSIDE, DISCARDED };
static const char *const verdicts[] = {"accepted ", "ahead ", "behind ", "outside ", "discarded "};

ALWAYS int receive(uint8_t n) {
    if (lockout)
        return DISCARDED;
    uint32_t distance = (uint8_t)(n - vr);
    if (distance == 0) {
        vr = (uint8_t)(vr + 1);
        retransmit = 0;
        return ACCEPTED;
    }
    if (distance < half) {
        retransmit = 1;
        return AHEAD;
    }
    if (distance >= 256 - half)
        return BEHIND;
    lockout = 1;
    return OUTSIDE;
}

ALWAYS void command(const struct frame *frame) {
    farm_b = (farm_b + 1) & 3;
    if (frame->kind == UNLOCK)
        lockout = retransmit = 0;
    else if (frame->kind == SET_VR && !lockout)
        retransmit = 0, vr = frame->vr;
}

/* ---- the assembler, with all MAPs open */

enum { MOST = 65542 };

static struct {
    uint8_t *octets;
    uint32_t len;
    int open;
} parts[64];
static int blocking;

static void put_dropped(const char *cause) {
    begin_line();
    put_number();
    PUT(" dropped ");
    put_name(cause);
    *out++ = '\n';
}

ALWAYS void put_packet(uint8_t map, const uint8_t *octets, uint32_t len) {
    begin_line();
    PUT("packet ");
    put_octet(map);
    *out++ = ' ';
    put_digits(octets, len);
    *out++ = '\n';
}

static void end_part(uint8_t map, const uint8_t *octets, uint32_t len, int interrupted, int several) {
    uint32_t at = 0, count = 0;
    for (; len - at >= 7 && begins_packet(octets + at) && len - at >= packet_len(octets + at); count++)
        at += packet_len(octets + at);
    if (at < len || count == 0 || (!several && count > 1)) {
        put_dropped("NotAPacket");
        return;
    }
    if (interrupted)
        put_dropped("Interrupted");
    for (at = 0; at < len; at += packet_len(octets + at))
        put_packet(map, octets + at, packet_len(octets + at));
}

static void assemble(const struct frame *frame) {
    uint8_t map = frame->map;
    int was_open = parts[map].open;
    if (frame->flags == 3) {
        parts[map].open = 0;
        end_part(map, frame->payload, frame->len, was_open, blocking);
        return;
    }
    if (frame->flags == 1) {
        if (!parts[map].octets && !(parts[map].octets = malloc(MOST)))
            _exit(3);
        memcpy(parts[map].octets, frame->payload, frame->len);
        parts[map].len = frame->len;
        parts[map].open = 1;
        if (was_open)
            put_dropped("Interrupted");
        return;
    }
    if (!was_open) {
        put_dropped("NoBeginning");
        return;
    }
    if (parts[map].len + frame->len > MOST) {
        parts[map].open = 0;
        put_dropped("TooLong");
        return;
    }
    memcpy(parts[map].octets + parts[map].len, frame->payload, frame->len);
    parts[map].len += frame->len;
    if (frame->flags == 2) {
        parts[map].open = 0;
        end_part(map, parts[map].octets, parts[map].len, 0, 0);
    }
}

/* ---- lines of frames */

enum { TC, FARM, MAP, CHECK };

ALWAYS void put_channel(const struct frame *frame) {
    PUT(" scid=");
    put_short(frame->scid);
    PUT(" vcid=");
    put_octet(frame->vcid);
}

ALWAYS void put_segment(const struct frame *frame) {
    PUT(" seg=");
    *out++ = '0' + frame->flags;
    PUT(" map=");
    put_octet(frame->map);
    PUT(" data=");
    put_digits(frame->payload, frame->len);
}

ALWAYS void tc_line(const struct frame *frame) {
    put_number();
    if (frame->kind == AD) {
        PUT(" AD");
        put_channel(frame);
        PUT(" n=");
        put_octet(frame->n);
        put_segment(frame);
    } else if (frame->kind == BD) {
        PUT(" BD");
        put_channel(frame);
        put_segment(frame);
    } else {
        PUT(" BC");
        put_channel(frame);
        if (frame->kind == UNLOCK) {
            PUT(" unlock");
        } else {
            PUT(" set ");
            put_octet(frame->vr);
        }
    }
    *out++ = '\n';
}

ALWAYS void farm_line(const struct frame *frame) {
    put_number();
    if (frame->kind == AD) {
        PUT(" AD ");
        put_octet(frame->n);
        *out++ = ' ';
        put_name(verdicts[receive(frame->n)]);
    } else {
        command(frame);
        if (frame->kind == BD) {
            PUT(" BD ");
        } else if (frame->kind == UNLOCK) {
            PUT(" BC unlock ");
        } else {
            PUT(" BC set ");
            put_octet(frame->vr);
            *out++ = ' ';
        }
    }
    if (lockout)
        PUT("Lockout vr=");
    else
        PUT("Open vr=");
    put_octet(vr);
    uint8_t *flags = out;
    PUT(" l=0 w=0 t=0 b=0\n");
    flags[3] += lockout;
    flags[11] += retransmit;
    flags[15] += farm_b;
}

ALWAYS void map_lines(const struct frame *frame) {
    if (frame->kind == AD) {
        if (receive(frame->n) == ACCEPTED)
            assemble(frame);
        return;
    }
    command(frame);
    if (frame->kind != BD)
        return;
    if (frame->flags != 3 || frame->len < 7 || !begins_packet(frame->payload) || frame->len != packet_len(frame->payload)) {
        put_dropped("Bypass");
        return;
    }
    PUT("bypass ");
    put_octet(frame->map);
    *out++ = ' ';
    put_digits(frame->payload, frame->len);
    *out++ = '\n';
}

ALWAYS void list_frames(const uint8_t *octets, size_t left, int task, int checked) {
    while (left >= 5) {
        uint32_t len = (two(octets + 2) & 1023) + 1;
        if (len < (checked ? 7 : 5)) {
            count_record();
            put_invalid(5, fault_names[5]);
            return;
        }
        if (left < len)
            break;
        struct frame frame;
        count_record();
        begin_line();
        int fault = decode(octets, len, checked, &frame);
        if (__builtin_expect(fault, 0))
            put_invalid(fault, fault_names[fault]);
        else if (task == TC)
            tc_line(&frame);
        else if (task == FARM)
            farm_line(&frame);
        else if (task == MAP)
            map_lines(&frame);
        octets += len;
        left -= len;
    }
    if (left) {
        count_record();
        put_invalid(1, fault_names[1]);
    }
}

/* ---- space packets (CCSDS 133.0-B-2, 4.1) */

static void list_packets(const uint8_t *octets, size_t left) {
    static int last[2048];
    memset(last, -1, sizeof last);
    while (left >= 6) {
        uint32_t first = two(octets), second = two(octets + 2), len = packet_len(octets);
        if (first >> 13 || (first & 0xfff) == 0xfff) {
            count_record();
            put_invalid(first >> 13 ? 2 : 3, first >> 13 ? "Version" : "IdleWithSecondary");
            return;
        }
        if (left < len)
            break;
        uint32_t apid = first & 2047, count = second & 16383;
        count_record();
        begin_line();
        put_number();
        if (first >> 12 & 1)
            PUT(" TC secondary=");
        else
            PUT(" TM secondary=");
        *out++ = '0' + (first >> 11 & 1);
        PUT(" apid=");
        put_short(apid);
        PUT(" flags=");
        *out++ = '0' + (second >> 14);
        PUT(" count=");
        put_short(count);
        PUT(" gap=");
        if (last[apid] < 0)
            *out++ = '-';
        else
            put_short((count - last[apid] - 1) & 16383);
        last[apid] = count;
        PUT(" data=");
        put_digits(octets + 6, len - 6);
        *out++ = '\n';
        octets += len;
        left -= len;
    }
    if (left) {
        count_record();
        put_invalid(1, "Truncated");
    }
}

/* ---- telemetry frames (CCSDS 132.0-B-3, 4.1), and the packets in them */

enum { IDLE = 2047, NO_START = 2047, ONLY_IDLE = 2046, PIECES = 20000 };

static struct {
    const uint8_t *octets;
    uint32_t len;
} pieces[PIECES];               /* of the packet that is not finished */
static uint32_t piece_count, begun;
static uint8_t header[6];
static int in_step;

static void add(const uint8_t *octets, uint32_t len) {
    if (!len)
        return;
    for (uint32_t i = 0; begun + i < 6 && i < len; i++)
        header[begun + i] = octets[i];
    pieces[piece_count].octets = octets;
    pieces[piece_count++].len = len;
    begun += len;
}

static void forget(void) {
    piece_count = begun = 0;
}

static void lose(void) {
    forget();
    in_step = 0;
}

static void hand_out(void) {
    if ((two(header) & 2047) != IDLE) {
        begin_line();
        PUT("packet ");
        for (uint32_t i = 0; i < piece_count; i++)
            put_digits(pieces[i].octets, pieces[i].len);
        *out++ = '\n';
    }
    forget();
}

static void go_on(const uint8_t *data, uint32_t len) {
    if (!in_step)
        return;
    if (!begun) {
        in_step = 0;
        return;
    }
    add(data, len);
    if (begun < 6)
        return;
    if (!begins_packet(header) || packet_len(header) < begun)
        lose();
    else if (packet_len(header) == begun)
        hand_out();
}

static void start_at(const uint8_t *data, uint32_t len, uint32_t pointer) {
    if (in_step && begun) {
        add(data, pointer);
        if (begun >= 6 && begins_packet(header) && packet_len(header) == begun)
            hand_out();
    }
    forget();
    in_step = 1;
    data += pointer;
    len -= pointer;
    while (len >= 6) {
        if (!begins_packet(data)) {
            lose();
            return;
        }
        uint32_t extent = packet_len(data);
        if (len < extent)
            break;
        if ((two(data) & 2047) != IDLE) {
            begin_line();
            PUT("packet ");
            put_digits(data, extent);
            *out++ = '\n';
        }
        data += extent;
        len -= extent;
    }
    add(data, len);
}

/* Why a control word is none, and its line where it is one (CCSDS 232.0-B-4, 4.2). */
static const char *const word_faults[] = {0, "Kind", "Version", "Cop", "Spare"};

ALWAYS int fault_of_word(const uint8_t *octets) {
    if (octets[0] >> 7)
        return 1;
    if (octets[0] >> 5)
        return 2;
    if ((octets[0] & 3) != 1)
        return 3;
    return (octets[1] & 3) || (octets[2] & 1) ? 4 : 0;
}

ALWAYS void put_report(const uint8_t *octets) {
    PUT("report vcid=");
    put_octet(octets[1] >> 2);
    PUT(" vr=");
    put_octet(octets[3]);
    PUT(" l=");
    *out++ = '0' + (octets[2] >> 5 & 1);
    PUT(" w=");
    *out++ = '0' + (octets[2] >> 4 & 1);
    PUT(" t=");
    *out++ = '0' + (octets[2] >> 3 & 1);
    PUT(" b=");
    *out++ = '0' + (octets[2] >> 1 & 3);
    PUT(" status=");
    *out++ = '0' + (octets[0] >> 2 & 7);
    PUT(" rf=");
    *out++ = '0' + (octets[2] >> 7);
    PUT(" lock=");
    *out++ = '0' + (octets[2] >> 6 & 1);
    *out++ = '\n';
}

static void list_words(const uint8_t *octets, size_t left) {
    for (; left >= 4; octets += 4, left -= 4) {
        int fault = fault_of_word(octets);
        count_record();
        if (fault) {
            put_invalid(fault, word_faults[fault]);
            continue;
        }
        begin_line();
        put_number();
        *out++ = ' ';
        put_report(octets);
    }
    if (left) {
        count_record();
        put_invalid(6, "Short");
    }
}

static void put_field(const uint8_t *octets) {
    int fault = fault_of_word(octets);
    if (fault) {
        PUT("report invalid ");
        *out++ = '0' + fault;
        *out++ = ' ';
        put_name(word_faults[fault]);
        *out++ = '\n';
    } else
        put_report(octets);
}

static int reports;

static void list_telemetry(const uint8_t *octets, size_t left, uint32_t size) {
    int last = -1;
    for (; left >= size; octets += size, left -= size) {
        uint32_t first = two(octets), third = two(octets + 4), pointer = third & 2047;
        count_record();
        begin_line();
        if (first >> 14) {
            put_invalid(2, "Version");
            continue;
        }
        if (check(octets, size - 2) != two(octets + size - 2)) {
            put_invalid(3, "Check");
            continue;
        }
        if (third >> 11 != 3) {
            put_invalid(4, "Status");
            continue;
        }
        if (pointer >= size - 12 && pointer < ONLY_IDLE) {
            put_invalid(5, "Pointer");
            continue;
        }
        if (!(first & 1)) {
            put_invalid(6, "NoOcf");
            continue;
        }
        put_number();
        PUT(" scid=");
        put_short(first >> 4 & 1023);
        PUT(" vcid=");
        *out++ = '0' + (first >> 1 & 7);
        PUT(" mc=");
        put_octet(octets[2]);
        PUT(" vc=");
        put_octet(octets[3]);
        PUT(" pointer=");
        if (pointer == NO_START)
            PUT("none");
        else if (pointer == ONLY_IDLE)
            PUT("idle");
        else
            put_short(pointer);
        PUT(" ocf=");
        put_digits(octets + size - 6, 4);
        PUT(" gap=");
        int gap = last < 0 ? -1 : (uint8_t)(octets[3] - last - 1);
        last = octets[3];
        if (gap < 0)
            *out++ = '-';
        else
            put_octet(gap);
        *out++ = '\n';
        if (reports)
            put_field(octets + size - 6);
        if (gap > 0)
            lose();
        if (pointer == NO_START)
            go_on(octets + 6, size - 12);
        else if (pointer != ONLY_IDLE)
            start_at(octets + 6, size - 12, pointer);
        else if (in_step && begun)
            lose();
    }
    if (left) {
        count_record();
        put_invalid(1, "Length");
    }
}

/* ---- the command */

int main(int count, char **words) {
    int checked = 0;
    uint32_t size = 0;
    if (count < 3)
        return 2;
    for (int i = 2; i < count - 1; i++) {
        if (!strcmp(words[i], "--check"))
            checked = 1;
        else if (!strcmp(words[i], "--blocking"))
            blocking = 1;
        else if (!strcmp(words[i], "--report"))
            reports = 1;
        else if (!strcmp(words[i], "--width"))
            half = atoi(words[++i]) / 2;
        else if (!strcmp(words[i], "--vr"))
            vr = atoi(words[++i]);
        else if (!strcmp(words[i], "--length"))
            size = atoi(words[++i]);
        else
            return 2;
    }
    struct stat file;
    int fd = open(words[count - 1], O_RDONLY);
    if (fd < 0 || fstat(fd, &file) < 0)
        return 3;
    /* Octets past the file's end may be read, and are not looked at. */
    size_t left = file.st_size;
    uint8_t *octets = mmap(0, left + 8192, PROT_READ, MAP_PRIVATE | MAP_ANONYMOUS, -1, 0);
    if (left)
        octets = mmap(octets, left, PROT_READ, MAP_PRIVATE | MAP_FIXED | MAP_POPULATE, fd, 0);
    if (octets == MAP_FAILED)
        return 3;
    make_tables();
    const char *task = words[1];
    if (!strcmp(task, "tc"))
        checked ? list_frames(octets, left, TC, 1) : list_frames(octets, left, TC, 0);
    else if (!strcmp(task, "farm"))
        checked ? list_frames(octets, left, FARM, 1) : list_frames(octets, left, FARM, 0);
    else if (!strcmp(task, "map"))
        checked ? list_frames(octets, left, MAP, 1) : list_frames(octets, left, MAP, 0);
    else if (!strcmp(task, "check"))
        list_frames(octets, left, CHECK, 1);
    else if (!strcmp(task, "packets"))
        list_packets(octets, left);
    else if (!strcmp(task, "tm"))
        list_telemetry(octets, left, size);
    else if (!strcmp(task, "clcw"))
        list_words(octets, left);
    else
        return 2;
    flush();
    return status;
}
