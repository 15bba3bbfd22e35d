/*
 * The calls on iris codes: every bit both ways, by angle and ring as they are worked out here;
 * every distance; each refusal with every length and every room; and codes from a scanner through a
 * whole private check.
 */
#define _DEFAULT_SOURCE /* MAP_ANONYMOUS */

#include "test.h"

#include <string.h>
#include <sys/mman.h>

#define ANGLES 64
#define RINGS 8
#define BYTES 64
#define BITS 512

/* Lengths and rooms are tried up to these. */
#define BYTES_TRIED 130
#define WORDS_TRIED 600

/* The formulas. */

static size_t scanners_bit(size_t angle, size_t ring)
{
    return angle * 8 + ring;
}

static size_t our_bit(size_t angle, size_t ring)
{
    return ring * 64 + angle;
}

/* Bit i is bit i % 8 of byte i / 8, the lowest first. */
static bool has_bit(const uint8_t *code, size_t i)
{
    return code[i / 8] >> i % 8 & 1;
}

static void set_bit(uint8_t *code, size_t i)
{
    code[i / 8] |= (uint8_t)(1 << i % 8);
}

static void to_rings(const void *code, void *out)
{
    memset(out, 0, BYTES);
    for (size_t angle = 0; angle < ANGLES; angle++)
        for (size_t ring = 0; ring < RINGS; ring++)
            if (has_bit(code, scanners_bit(angle, ring)))
                set_bit(out, our_bit(angle, ring));
}

static void to_angles(const void *code, void *out)
{
    memset(out, 0, BYTES);
    for (size_t angle = 0; angle < ANGLES; angle++)
        for (size_t ring = 0; ring < RINGS; ring++)
            if (has_bit(code, our_bit(angle, ring)))
                set_bit(out, scanners_bit(angle, ring));
}

static void unpack(const void *code, void *out)
{
    uint32_t *v = out;
    for (size_t i = 0; i < BITS; i++)
        v[i] = has_bit(code, i) ? 1 : 0;
}

static void pack(const void *vector, void *out)
{
    const uint32_t *v = vector;
    memset(out, 0, BYTES);
    for (size_t i = 0; i < BITS; i++)
        if (v[i] == 1)
            set_bit(out, i);
}

/* What is lent stands on a page of drawn bytes, at its beginning or at its end, or in between. The
   rest of the page must stay as it is, and what lies around the page must not be touched. Behind it
   that is much: it is made readable where a slice is said to be very long. */

#define PAGE 4096
#define BEHIND (((size_t)1 << 34) + 4 * PAGE)

struct page {
    uint8_t *at;
    uint8_t expected[PAGE];
};

static struct page first, second, output;
static uint8_t drawn_page[PAGE];

static void map(struct page *p)
{
    uint8_t *before = mmap(NULL, PAGE + BEHIND, PROT_NONE,
        MAP_PRIVATE | MAP_ANONYMOUS | MAP_NORESERVE, -1, 0);
    EXPECT(before != MAP_FAILED);
    p->at = before + PAGE;
    EXPECT(mprotect(p->at, PAGE, PROT_READ | PROT_WRITE) == 0);
}

static void protect_behind(int protection)
{
    const struct page *const pages[] = {&first, &second, &output};
    for (size_t i = 0; i < sizeof pages / sizeof *pages; i++)
        EXPECT(mprotect(pages[i]->at + PAGE, BEHIND - PAGE, protection) == 0);
}

static void *lend(struct page *p, size_t from, const void *bytes, size_t size)
{
    memcpy(p->expected, drawn_page, PAGE);
    if (bytes != NULL && size > 0)
        memcpy(p->expected + from, bytes, size < PAGE - from ? size : PAGE - from);
    memcpy(p->at, p->expected, PAGE);
    return p->at + from;
}

static bool stays(const struct page *p)
{
    return memcmp(p->at, p->expected, PAGE) == 0;
}

static size_t from(bool at_end, size_t size)
{
    return at_end ? PAGE - size : 0;
}

/* The four calls that write. */

struct writer {
    const char *name;
    uint32_t (*call)(const void *in, size_t length, void *out, size_t room);
    void (*formula)(const void *in, void *out);
    size_t takes, in_size;   /* elements, and bytes of one */
    size_t writes, out_size; /* the same */
    size_t lengths, rooms;   /* the most that are tried */
};

static uint32_t call_to_rings(const void *in, size_t length, void *out, size_t room)
{
    return door_iris_to_rings(in, length, out, room);
}

static uint32_t call_to_angles(const void *in, size_t length, void *out, size_t room)
{
    return door_iris_to_angles(in, length, out, room);
}

static uint32_t call_unpack(const void *in, size_t length, void *out, size_t room)
{
    return door_iris_unpack(in, length, out, room);
}

static uint32_t call_pack(const void *in, size_t length, void *out, size_t room)
{
    return door_iris_pack(in, length, out, room);
}

enum { TO_RINGS, TO_ANGLES, UNPACK, PACK, WRITERS };

static const struct writer WRITER[WRITERS] = {
    [TO_RINGS] = {
        "to rings", call_to_rings, to_rings, BYTES, 1, BYTES, 1, BYTES_TRIED, BYTES_TRIED},
    [TO_ANGLES] = {
        "to angles", call_to_angles, to_angles, BYTES, 1, BYTES, 1, BYTES_TRIED, BYTES_TRIED},
    [UNPACK] = {"unpack", call_unpack, unpack, BYTES, 1, BITS, 4, BYTES_TRIED, WORDS_TRIED},
    [PACK] = {"pack", call_pack, pack, BITS, 4, BYTES, 1, WORDS_TRIED, BYTES_TRIED},
};

/* How long what is lent is said to be, in elements, and where on their pages it begins. */
struct lent {
    size_t length, room, in_from, out_from;
};

/* The call answers this. If it is accepted, what it writes is the formula's; nothing else changes,
   and if it is refused, nothing at all. What is not so is told with the call's name. */
static void says_at(const struct writer *w, const void *in, struct lent l, uint32_t why)
{
    const void *lent = lend(&first, l.in_from, in, w->in_size * l.length);
    void *room = lend(&output, l.out_from, NULL, 0);
    expect(w->call(lent, l.length, room, l.room) == why, w->name, __FILE__, __LINE__);
    if (why == DOOR_ACCEPTED) {
        uint32_t made[BITS];
        w->formula(in, made);
        memcpy(output.expected + l.out_from, made, w->writes * w->out_size);
    }
    expect(stays(&first) && stays(&output), w->name, __FILE__, __LINE__);
}

/* At the beginning of both pages, and at the end of both. */
static void says(const struct writer *w, const void *in, size_t length, size_t room, uint32_t why)
{
    for (int at_end = 0; at_end < 2; at_end++) {
        const struct lent l = {length, room, from(at_end, w->in_size * length),
            from(at_end, w->out_size * room)};
        says_at(w, in, l, why);
    }
}

/* With just the length and the room that are needed: what is written is written there. */
static void writes(int call, const void *in, void *out)
{
    const struct writer *w = &WRITER[call];
    says(w, in, w->takes, w->writes, DOOR_ACCEPTED);
    memcpy(out, output.at + from(true, w->out_size * w->writes), w->out_size * w->writes);
}

/* In how many bits two codes differ. */

static void hamming_at(const uint8_t *a, size_t a_length, size_t a_from, const uint8_t *b,
    size_t b_length, size_t b_from, struct door_hamming_answer said)
{
    const uint8_t *lent_a = lend(&first, a_from, a, a_length);
    const uint8_t *lent_b = lend(&second, b_from, b, b_length);
    const struct door_hamming_answer h = door_iris_hamming(lent_a, a_length, lent_b, b_length);
    EXPECT(h.why == said.why && h.distance == said.distance);
    EXPECT(stays(&first) && stays(&second));
}

static void hamming_says(const uint8_t *a, size_t a_length, const uint8_t *b, size_t b_length,
    struct door_hamming_answer said)
{
    for (int at_end = 0; at_end < 2; at_end++)
        hamming_at(a, a_length, from(at_end, a_length), b, b_length, from(at_end, b_length), said);
}

static void hamming(const uint8_t *a, const uint8_t *b, uint32_t distance)
{
    const struct door_hamming_answer said = {DOOR_ACCEPTED, distance};
    hamming_says(a, BYTES, b, BYTES, said);
    hamming_says(b, BYTES, a, BYTES, said);
}

/* What was worked out by hand. */

static void written_out(void)
{
    /* Angle 0 in rings 0 and 1, angle 9 in ring 7, angle 63 in ring 0. */
    static const uint8_t scanned[BYTES] = {[0] = 0x03, [9] = 0x80, [63] = 0x01};
    static const uint8_t stored[BYTES] = {[0] = 0x01, [8] = 0x01, [57] = 0x02, [7] = 0x80};
    static const uint8_t none[BYTES];
    uint8_t out[BYTES], all[BYTES];
    uint32_t v[BITS];
    writes(TO_RINGS, scanned, out);
    EXPECT(memcmp(out, stored, BYTES) == 0);
    writes(TO_ANGLES, stored, out);
    EXPECT(memcmp(out, scanned, BYTES) == 0);
    writes(UNPACK, scanned, v);
    EXPECT(v[0] == 1 && v[1] == 1 && v[2] == 0 && v[72] == 0 && v[79] == 1 && v[504] == 1);
    memset(all, 255, sizeof all);
    hamming(scanned, scanned, 0);
    hamming(scanned, none, 4);
    hamming(stored, none, 4);
    hamming(all, none, BITS);
    hamming(all, scanned, BITS - 4);
}

/* A code both ways, and both ways back. */
static void there_and_back(const uint8_t *code)
{
    uint8_t rings[BYTES], angles[BYTES], back[BYTES];
    uint32_t v[BITS], again[BITS];
    writes(TO_RINGS, code, rings);
    writes(TO_ANGLES, rings, back);
    EXPECT(memcmp(back, code, BYTES) == 0);
    writes(TO_ANGLES, code, angles);
    writes(TO_RINGS, angles, back);
    EXPECT(memcmp(back, code, BYTES) == 0);
    writes(UNPACK, code, v);
    writes(PACK, v, back);
    EXPECT(memcmp(back, code, BYTES) == 0);
    writes(UNPACK, back, again);
    EXPECT(memcmp(again, v, sizeof v) == 0);
}

/* One bit, and all but one. A byte of the scanner's is an angle, and the ring is the bit in it; of
   ours, eight bytes are a ring. */
static void every_bit(void)
{
    for (size_t angle = 0; angle < ANGLES; angle++)
        for (size_t ring = 0; ring < RINGS; ring++) {
            uint8_t scanned[BYTES] = {0}, stored[BYTES] = {0}, out[BYTES];
            scanned[angle] = (uint8_t)(1 << ring);
            stored[8 * ring + angle / 8] = (uint8_t)(1 << angle % 8);
            for (int others = 0; others < 2; others++) {
                writes(TO_RINGS, scanned, out);
                EXPECT(memcmp(out, stored, BYTES) == 0);
                writes(TO_ANGLES, stored, out);
                EXPECT(memcmp(out, scanned, BYTES) == 0);
                there_and_back(scanned);
                there_and_back(stored);
                for (size_t i = 0; i < BYTES; i++) {
                    scanned[i] = (uint8_t)~scanned[i];
                    stored[i] = (uint8_t)~stored[i];
                }
            }
        }
}

/* Of a vector with one 1, or one 0. */
static void every_element(void)
{
    for (size_t i = 0; i < BITS; i++)
        for (uint32_t others = 0; others < 2; others++) {
            uint8_t expected[BYTES], code[BYTES];
            uint32_t v[BITS], back[BITS];
            memset(expected, others == 0 ? 0 : 255, BYTES);
            expected[i / 8] ^= (uint8_t)(1 << i % 8);
            for (size_t k = 0; k < BITS; k++)
                v[k] = k == i ? 1 - others : others;
            writes(PACK, v, code);
            EXPECT(memcmp(code, expected, BYTES) == 0);
            writes(UNPACK, code, back);
            EXPECT(memcmp(back, v, sizeof v) == 0);
        }
}

/* Every value of a byte, at each place among drawn ones, and at all places. */
static void every_byte(void)
{
    uint8_t code[BYTES];
    for (size_t place = 0; place < BYTES; place++) {
        draw_bytes(code, sizeof code);
        for (int byte = 0; byte < 256; byte++) {
            code[place] = (uint8_t)byte;
            there_and_back(code);
        }
    }
    for (int byte = 0; byte < 256; byte++) {
        memset(code, byte, sizeof code);
        there_and_back(code);
    }
}

/* The measure of DOOR_HAMMING, counted, and as boxes work it out: own + own - 2 cross. */
static void measured(const uint8_t *a, const uint8_t *b, uint32_t distance)
{
    uint32_t x[BITS], y[BITS], counted = 0, own = 0, cross = 0;
    writes(UNPACK, a, x);
    writes(UNPACK, b, y);
    for (size_t i = 0; i < BITS; i++) {
        counted += x[i] != y[i];
        own += x[i] * x[i] + y[i] * y[i];
        cross += x[i] * y[i];
    }
    EXPECT(counted == distance && own - 2 * cross == distance);
    hamming(a, b, distance);
}

/* In the order that they have, and in each other one: no call can tell which that is. */
static void measured_in_each_order(const uint8_t *a, const uint8_t *b, uint32_t distance)
{
    uint8_t moved_a[BYTES], moved_b[BYTES];
    measured(a, b, distance);
    writes(TO_RINGS, a, moved_a);
    writes(TO_RINGS, b, moved_b);
    measured(moved_a, moved_b, distance);
    writes(TO_ANGLES, a, moved_a);
    writes(TO_ANGLES, b, moved_b);
    measured(moved_a, moved_b, distance);
}

/* So many bits of the second code are other ones than in the first. */
static void draw_codes(uint8_t *a, uint8_t *b, uint32_t distance)
{
    uint8_t changed[BYTES] = {0};
    draw_bytes(a, BYTES);
    while (distance > 0) {
        const size_t i = draw() % BITS;
        distance -= !has_bit(changed, i);
        set_bit(changed, i);
    }
    for (size_t i = 0; i < BYTES; i++)
        b[i] = a[i] ^ changed[i];
}

static void every_distance(void)
{
    for (uint32_t distance = 0; distance <= BITS; distance++) {
        uint8_t a[BYTES], b[BYTES];
        draw_codes(a, b, distance);
        measured_in_each_order(a, b, distance);
        there_and_back(a);
    }
}

/* Any two bits. */
static void every_two_bits(void)
{
    for (size_t i = 0; i < BITS; i++)
        for (size_t k = 0; k < BITS; k++) {
            uint8_t a[BYTES] = {0}, b[BYTES] = {0};
            set_bit(a, i);
            set_bit(b, k);
            const struct door_hamming_answer h = door_iris_hamming(a, BYTES, b, BYTES);
            EXPECT(h.why == DOOR_ACCEPTED && h.distance == (i == k ? 0 : 2));
        }
}

/* What is only read may be one and the same, or overlap. */
static void overlapping(void)
{
    for (size_t apart = 0; apart <= BYTES; apart++) {
        uint8_t *a = lend(&first, PAGE - 2 * BYTES, NULL, 0), *b = a + apart;
        uint32_t distance = 0;
        for (size_t i = 0; i < BITS; i++)
            distance += has_bit(a, i) != has_bit(b, i);
        const struct door_hamming_answer h = door_iris_hamming(a, BYTES, b, BYTES);
        const struct door_hamming_answer turned = door_iris_hamming(b, BYTES, a, BYTES);
        EXPECT(h.why == DOOR_ACCEPTED && h.distance == distance);
        EXPECT(turned.why == DOOR_ACCEPTED && turned.distance == distance);
        EXPECT(stays(&first) && (distance > 0) == (apart > 0));
    }
}

/* Bytes may begin anywhere, words where a word may. */
static void unaligned(void)
{
    uint8_t a[BYTES], b[BYTES];
    uint32_t v[BITS];
    draw_codes(a, b, 77);
    unpack(a, v);
    const struct door_hamming_answer said = {DOOR_ACCEPTED, 77};
    for (size_t i = 0; i < BYTES; i++)
        for (size_t k = 0; k < BYTES; k++) {
            for (int call = 0; call < WRITERS; call++) {
                const struct writer *w = &WRITER[call];
                const struct lent l = {w->takes, w->writes, i * w->in_size, k * w->out_size};
                says_at(w, call == PACK ? (const void *)v : a, l, DOOR_ACCEPTED);
            }
            hamming_at(a, BYTES, i, b, BYTES, k, said);
        }
}

/* Refusals. */

/* Which of the two tests that every call that writes makes refuses, if one does. */
static uint32_t why_not(const struct writer *w, size_t length, size_t room)
{
    if (length != w->takes)
        return DOOR_WRONG_LENGTH;
    return room < w->writes ? DOOR_SHORT_BUFFER : DOOR_ACCEPTED;
}

/* Every length with every room. */
static void every_length(int call)
{
    const struct writer *w = &WRITER[call];
    uint32_t in[WORDS_TRIED];
    for (size_t i = 0; i < WORDS_TRIED; i++)
        in[i] = call == PACK ? draw() % 2 : draw();
    for (size_t length = 0; length <= w->lengths; length++)
        for (size_t room = 0; room <= w->rooms; room++)
            says(w, in, length, room, why_not(w, length, room));
}

/* With an element that is refused as well, in front, in the middle or at the end. */
static void every_length_and_element(void)
{
    const struct writer *w = &WRITER[PACK];
    uint32_t in[WORDS_TRIED];
    for (size_t length = 0; length <= w->lengths; length++)
        for (size_t room = 0; room <= w->rooms; room++) {
            const size_t places[] = {0, length / 2, length == 0 ? 0 : length - 1};
            memset(in, 0, sizeof in);
            in[places[room % 3]] = 2;
            const uint32_t why = why_not(w, length, room);
            says(w, in, length, room, why == DOOR_ACCEPTED ? DOOR_OUT_OF_RANGE : why);
        }
}

static void every_length_of_two(void)
{
    uint8_t a[BYTES_TRIED], b[BYTES_TRIED];
    draw_bytes(a, sizeof a);
    draw_bytes(b, sizeof b);
    struct door_hamming_answer said = {DOOR_ACCEPTED, 0};
    for (size_t i = 0; i < BITS; i++)
        said.distance += has_bit(a, i) != has_bit(b, i);
    const struct door_hamming_answer refused = {DOOR_WRONG_LENGTH, 0};
    for (size_t i = 0; i <= BYTES_TRIED; i++)
        for (size_t k = 0; k <= BYTES_TRIED; k++)
            hamming_says(a, i, b, k, i == BYTES && k == BYTES ? said : refused);
}

/* Lengths and rooms that would be others if they were cut to 8, 16 or 32 bits. */
static void long_ones(void)
{
    static const size_t more[] = {256, 512, 65536, (size_t)1 << 32};
    static const struct door_hamming_answer refused = {DOOR_WRONG_LENGTH, 0};
    static const uint32_t in[BITS];
    const uint8_t *code = (const uint8_t *)in;
    protect_behind(PROT_READ);
    for (size_t i = 0; i < sizeof more / sizeof *more; i++) {
        for (int call = 0; call < WRITERS; call++) {
            const struct writer *w = &WRITER[call];
            const struct lent too_long = {w->takes + more[i], w->writes, 0, 0};
            const struct lent much_room = {w->takes, more[i] + 1, 0, 0};
            says_at(w, NULL, too_long, DOOR_WRONG_LENGTH);
            says_at(w, in, much_room, why_not(w, w->takes, more[i] + 1));
        }
        hamming_at(NULL, BYTES + more[i], 0, code, BYTES, 0, refused);
        hamming_at(code, BYTES, 0, NULL, BYTES + more[i], 0, refused);
        hamming_at(NULL, BYTES + more[i], 0, NULL, BYTES + more[i], 0, refused);
    }
    protect_behind(PROT_NONE);
}

/* An empty slice may have a null pointer. */
static void null_pointers(void)
{
    static const uint32_t in[BITS];
    for (int call = 0; call < WRITERS; call++) {
        const struct writer *w = &WRITER[call];
        const void *lent = lend(&first, 0, in, w->takes * w->in_size);
        void *room = lend(&output, 0, NULL, 0);
        EXPECT(w->call(NULL, 0, room, w->writes) == DOOR_WRONG_LENGTH);
        EXPECT(w->call(NULL, 0, NULL, 0) == DOOR_WRONG_LENGTH);
        EXPECT(w->call(lent, w->takes, NULL, 0) == DOOR_SHORT_BUFFER);
        EXPECT(stays(&first) && stays(&output));
    }
    const uint8_t *code = lend(&first, 0, in, BYTES);
    const struct door_hamming_answer h[] = {door_iris_hamming(NULL, 0, code, BYTES),
        door_iris_hamming(code, BYTES, NULL, 0), door_iris_hamming(NULL, 0, NULL, 0)};
    for (size_t i = 0; i < sizeof h / sizeof *h; i++)
        EXPECT(h[i].why == DOOR_WRONG_LENGTH && h[i].distance == 0);
    EXPECT(stays(&first));
}

/* A vector with these elements is refused by 8, and if its length is wrong or the room is short, by
   that. */
static void element_refused(const uint32_t *v)
{
    const struct writer *w = &WRITER[PACK];
    says(w, v, BITS, BYTES, DOOR_OUT_OF_RANGE);
    says(w, v, BITS, BYTES + 1, DOOR_OUT_OF_RANGE);
    says(w, v, BITS, BYTES - 1, DOOR_SHORT_BUFFER);
    says(w, v, BITS - 1, BYTES, DOOR_WRONG_LENGTH);
    says(w, v, BITS - 1, BYTES - 1, DOOR_WRONG_LENGTH);
}

/* At every place, among elements that are good. */
static void one_bad_element(uint32_t element)
{
    uint32_t v[BITS];
    for (size_t i = 0; i < BITS; i++)
        v[i] = draw() % 2;
    for (size_t i = 0; i < BITS; i++) {
        const uint32_t good = v[i];
        v[i] = element;
        element_refused(v);
        v[i] = good;
    }
    says(&WRITER[PACK], v, BITS, BYTES, DOOR_ACCEPTED);
}

/* Such that they or their excess sum to 0, or their xor is 0. */
static void several_bad_elements(uint32_t element)
{
    static const uint32_t signs[] = {1, UINT32_MAX};
    uint32_t v[BITS];
    for (size_t i = 0; i < 2; i++)
        for (int times = 0; times < 8; times++) {
            const size_t place = draw() % BITS, other = (place + 1 + draw() % (BITS - 1)) % BITS;
            memset(v, 0, sizeof v);
            v[place] = element;
            v[other] = signs[i] * element;
            element_refused(v);
        }
    for (size_t i = 0; i < BITS; i++)
        v[i] = element;
    element_refused(v);
}

static void every_element_refused(void)
{
    static const uint32_t elements[] = {3, 255, 257, 65535, 65537, 0x7fffffff, 0x80000001,
        0xfffffc00, UINT32_MAX - 1, UINT32_MAX};
    for (size_t i = 0; i < sizeof elements / sizeof *elements; i++) {
        one_bad_element(elements[i]);
        several_bad_elements(elements[i]);
    }
    for (int shift = 1; shift < 32; shift++) {
        one_bad_element((uint32_t)1 << shift);
        several_bad_elements((uint32_t)1 << shift);
    }
}

/* A private check of two codes, as the hosts of a door make it. */

static const uint8_t NAME[DOOR_NAME] = {'L', 'a', 'b'};
static const uint8_t SECRET[2][DOOR_KEY] = {{1}, {2}};
#define NAME_SIZE 3
#define NUMBER 7

/* From the scanner's bytes to the vector that the box masks; `stored` in our order. */
static void scan(const uint8_t *scanned, bool stored, uint32_t *v)
{
    uint8_t code[BYTES];
    memcpy(code, scanned, BYTES);
    if (stored)
        EXPECT(door_iris_to_rings(scanned, BYTES, code, BYTES) == DOOR_ACCEPTED);
    EXPECT(door_iris_unpack(code, BYTES, v, BITS) == DOOR_ACCEPTED);
}

/* Loads and masks at both boxes. */
static void begin_check(uint8_t scanned[2][BYTES], bool stored, uint32_t t,
    struct door_party box[2], uint32_t sent[2][BITS])
{
    static uint8_t half[2][DOOR_HALF_MOST];
    static uint32_t v[BITS];
    const struct door_terms terms = {DOOR_HAMMING, BITS};
    uint8_t seed[DOOR_KEY];
    draw_bytes(seed, sizeof seed);
    struct door_dealer dealer = door_start_dealer(
        NAME, NAME_SIZE, SECRET[0], DOOR_KEY, SECRET[1], DOOR_KEY, NUMBER - 1).dealer;
    EXPECT(door_deal(dealer, NUMBER, seed, DOOR_KEY, terms, t, half[0], DOOR_HALF_MOST, half[1],
        DOOR_HALF_MOST).why == DOOR_ACCEPTED);
    for (uint32_t i = 0; i < 2; i++) {
        struct door_party_answer a =
            door_start_party(NAME, NAME_SIZE, i, SECRET[i], DOOR_KEY, NUMBER - 1);
        EXPECT(a.why == DOOR_ACCEPTED);
        a = door_load(a.party, half[i], DOOR_HALF(BITS));
        EXPECT(a.why == DOOR_ACCEPTED);
        scan(scanned[i], stored, v);
        a = door_mask(a.party, v, BITS, sent[i], BITS);
        EXPECT(a.why == DOOR_ACCEPTED);
        box[i] = a.party;
    }
}

/* What the lock says at this threshold. */
static uint32_t lock_says(uint8_t scanned[2][BYTES], bool stored, uint32_t t)
{
    static struct door_party box[2];
    uint32_t sent[2][BITS], word[2], answer[2];
    begin_check(scanned, stored, t, box, sent);
    for (uint32_t i = 0; i < 2; i++) {
        const struct door_party_answer a = door_take(box[i], DOOR_MASKED_VECTOR, NAME, DOOR_NAME,
            1 - i, NUMBER, sent[1 - i], BITS);
        EXPECT(a.why == DOOR_ACCEPTED);
        box[i] = a.party;
        word[i] = a.word;
    }
    for (uint32_t i = 0; i < 2; i++) {
        const struct door_party_answer a =
            door_finish(box[i], DOOR_WORD, NAME, DOOR_NAME, 1 - i, NUMBER, word[1 - i]);
        EXPECT(a.why == DOOR_ACCEPTED);
        answer[i] = a.word;
    }
    const struct door_lock lock = door_start_lock(NAME, NAME_SIZE, NUMBER - 1).lock;
    const struct door_lock_answer joined = door_join(lock, DOOR_ANSWER, NAME, DOOR_NAME, 0, NUMBER,
        answer[0], DOOR_ANSWER, NAME, DOOR_NAME, 1, NUMBER, answer[1]);
    EXPECT(joined.why == DOOR_ACCEPTED);
    return joined.bit;
}

/* It turns at the distance that door_iris_hamming tells, in either order. */
static void private_checks(void)
{
    static const uint32_t distances[] = {0, 1, 2, 163, 255, 256, 257, 511, BITS};
    for (size_t i = 0; i < sizeof distances / sizeof *distances; i++)
        for (int stored = 0; stored < 2; stored++) {
            const uint32_t distance = distances[i];
            uint8_t scanned[2][BYTES];
            draw_codes(scanned[0], scanned[1], distance);
            hamming(scanned[0], scanned[1], distance);
            EXPECT(lock_says(scanned, stored, distance) == 1);
            EXPECT(lock_says(scanned, stored, distance + 1) == 1);
            if (distance > 0)
                EXPECT(lock_says(scanned, stored, distance - 1) == 0);
        }
}

void iris_codes(void)
{
    draw_bytes(drawn_page, sizeof drawn_page);
    map(&first);
    map(&second);
    map(&output);
    written_out();
    every_bit();
    every_element();
    every_byte();
    every_distance();
    every_two_bits();
    overlapping();
    unaligned();
    for (int call = 0; call < WRITERS; call++)
        every_length(call);
    every_length_and_element();
    every_length_of_two();
    long_ones();
    null_pointers();
    every_element_refused();
    private_checks();
}
