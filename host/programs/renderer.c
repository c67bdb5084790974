/* A renderer: a torus of some hundred vertices is turned, projected by the GTE, sorted by depth and filled into a
   small frame buffer, over several frames. In the last ones it stands so near, far or aside that flags come up. */
#include "gte.h"

enum { WIDTH = 128, HEIGHT = 96, FRAMES = 9 };
enum { RINGS = 20, SIDES = 14, VERTICES = RINGS * SIDES, FACES = 2 * VERTICES };
enum { ONE = 4096, TURN = 1024, DEPTHS = 512, NONE = 0xFFFF };

/* As the GTE loads it: X in the lower half of the first word, Y in the upper, Z in the second word. */
struct vertex {
    uint32_t xy;
    uint32_t z;
};

/* One vertex after projection. */
struct point {
    uint32_t xy;
    uint16_t depth;
    uint16_t bad;
};

/* Where the torus stands in each frame. */
static const struct place {
    int32_t x, y, z;
} places[FRAMES] = {
    {30, -20, 2400}, {30, -20, 1970}, {30, -20, 1540}, {30, -20, 1110}, {30, -20, 680},
    {30, 600, 250}, {0, 0, 33000}, {33000, -34000, 20000}, {-400, 500, 65000},
};

static struct vertex mesh[VERTICES];
static struct point points[VERTICES];
static uint8_t frame[HEIGHT][WIDTH];
static uint16_t first_face[DEPTHS];
static uint16_t next_face[FACES];
static uint8_t shades[FACES];

/* Each quarter of a turn is a cubic that is exact at both ends; 1024 units are a turn, 4096 is one. */
static int32_t sine(int32_t angle)
{
    int32_t a = angle & (TURN / 2 - 1);
    if (a > TURN / 4)
        a = TURN / 2 - a;
    int32_t value = a * (3 * 65536 - a * a) / 8192;
    return (angle & TURN / 2) != 0 ? -value : value;
}

static int32_t cosine(int32_t angle)
{
    return sine(angle + TURN / 4);
}

static uint32_t packed(int32_t low, int32_t high)
{
    return ((uint32_t)low & 0xFFFF) | (uint32_t)high << 16;
}

static void make_torus(void)
{
    for (int32_t ring = 0; ring < RINGS; ring++)
        for (int32_t side = 0; side < SIDES; side++) {
            int32_t a = ring * TURN / RINGS;
            int32_t b = side * TURN / SIDES;
            int32_t radius = 600 + 250 * cosine(b) / ONE;
            struct vertex *v = &mesh[ring * SIDES + side];
            v->xy = packed(radius * cosine(a) / ONE, radius * sine(a) / ONE);
            v->z = (uint32_t)(250 * sine(b) / ONE);
        }
}

/* Turned about Y by a, then about X by b, and set before the viewer. */
static void set_view(int32_t a, int32_t b, const struct place *place)
{
    int32_t ca = cosine(a), sa = sine(a), cb = cosine(b), sb = sine(b);
    gte_set_control(RT11RT12, packed(ca, 0));
    gte_set_control(RT13RT21, packed(sa, sb * sa / ONE));
    gte_set_control(RT22RT23, packed(cb, -(sb * ca / ONE)));
    gte_set_control(RT31RT32, packed(-(cb * sa / ONE), sb));
    gte_set_control(RT33, (uint32_t)(cb * ca / ONE));
    gte_set_control(TRX, (uint32_t)place->x);
    gte_set_control(TRY, (uint32_t)place->y);
    gte_set_control(TRZ, (uint32_t)place->z);
    gte_set_control(OFX, WIDTH / 2 * 65536);
    gte_set_control(OFY, HEIGHT / 2 * 65536);
    gte_set_control(H, 110);
    gte_set_control(DQA, 2800);
    gte_set_control(DQB, (uint32_t)-7000000);
    gte_set_control(ZSF3, 341);
    gte_set_control(ZSF4, 256);
}

static uint32_t project_vertices(uint32_t *results)
{
    uint32_t count = 0;
    for (uint32_t i = 0; i < VERTICES; i++) {
        gte_load(VXY0, &mesh[i].xy);
        gte_load(VZ0, &mesh[i].z);
        gte_rtps();
        gte_store(SXY2, &points[i].xy);
        points[i].depth = (uint16_t)gte_get(SZ3);
        uint32_t flag = gte_get_control(FLAG);
        points[i].bad = (uint16_t)(flag >> 31);
        results[count++] = points[i].xy;
        results[count++] = flag | points[i].depth % 4096;
        results[count++] = gte_get(IR0) << 16 ^ gte_get(MAC0);
    }
    return count;
}

static void corners(uint32_t face, uint32_t corner[3])
{
    uint32_t ring = face / 2 / SIDES;
    uint32_t side = face / 2 % SIDES;
    uint32_t a = ring * SIDES + side;
    uint32_t b = (ring + 1) % RINGS * SIDES + side;
    uint32_t c = (ring + 1) % RINGS * SIDES + (side + 1) % SIDES;
    uint32_t d = ring * SIDES + (side + 1) % SIDES;
    corner[0] = a;
    corner[1] = face % 2 == 0 ? b : c;
    corner[2] = face % 2 == 0 ? c : d;
}

/* Puts each visible face into the list of its depth. */
static uint32_t sort_faces(uint32_t *results)
{
    uint32_t hidden = 0, bad = 0, kept = 0, flags = 0;
    for (uint32_t i = 0; i < DEPTHS; i++)
        first_face[i] = NONE;
    for (uint32_t face = 0; face < FACES; face++) {
        uint32_t corner[3];
        corners(face, corner);
        gte_load(VXY0, &mesh[corner[0]].xy);
        gte_load(VZ0, &mesh[corner[0]].z);
        gte_load(VXY1, &mesh[corner[1]].xy);
        gte_load(VZ1, &mesh[corner[1]].z);
        gte_load(VXY2, &mesh[corner[2]].xy);
        gte_load(VZ2, &mesh[corner[2]].z);
        gte_rtpt();
        uint32_t flag = gte_get_control(FLAG);
        flags = (flags << 1 | flags >> 31) ^ flag;
        shades[face] = (uint8_t)(32 + gte_get(IR0) * 13 / 256 + face % 4);
        if (flag >> 31 != 0) {
            bad++;
            continue;
        }
        gte_nclip();
        if ((int32_t)gte_get(MAC0) >= 0) {
            hidden++;
            continue;
        }
        gte_avsz3();
        uint32_t depth = gte_get(OTZ);
        if (depth >= DEPTHS)
            depth = DEPTHS - 1;
        next_face[face] = first_face[depth];
        first_face[depth] = (uint16_t)face;
        kept++;
        gte_avsz4();
        flags ^= gte_get(OTZ) << 8;
    }
    results[0] = hidden;
    results[1] = bad;
    results[2] = kept;
    results[3] = flags;
    return 4;
}

static int32_t point_x(uint32_t index)
{
    return (int16_t)(uint16_t)points[index].xy;
}

static int32_t point_y(uint32_t index)
{
    return (int16_t)(uint16_t)(points[index].xy >> 16);
}

/* The left end of an edge on a line, in 16.16. */
static int32_t edge_x(int32_t x0, int32_t y0, int32_t x1, int32_t y1, int32_t y)
{
    return x0 * 65536 + (x1 - x0) * 65536 / (y1 - y0) * (y - y0);
}

static void fill_line(int32_t y, int32_t left, int32_t right, uint8_t shade)
{
    if (left > right) {
        int32_t kept = left;
        left = right;
        right = kept;
    }
    left = left < 0 ? 0 : (left + 65535) / 65536;
    right = right < 0 ? 0 : (right + 65535) / 65536;
    if (right > WIDTH)
        right = WIDTH;
    for (int32_t x = left; x < right; x++)
        frame[y][x] = shade;
}

static void fill_face(uint32_t face)
{
    uint32_t c[3];
    corners(face, c);
    for (uint32_t i = 0; i < 2; i++)
        for (uint32_t j = 0; j < 2; j++)
            if (point_y(c[j]) > point_y(c[j + 1])) {
                uint32_t kept = c[j];
                c[j] = c[j + 1];
                c[j + 1] = kept;
            }
    int32_t top = point_y(c[0]), middle = point_y(c[1]), bottom = point_y(c[2]);
    int32_t begin = top < 0 ? 0 : top;
    int32_t end = bottom > HEIGHT ? HEIGHT : bottom;
    for (int32_t y = begin; y < end; y++) {
        int32_t across = edge_x(point_x(c[0]), top, point_x(c[2]), bottom, y);
        int32_t along = y < middle ? edge_x(point_x(c[0]), top, point_x(c[1]), middle, y)
                                   : edge_x(point_x(c[1]), middle, point_x(c[2]), bottom, y);
        fill_line(y, across, along, shades[face]);
    }
}

static uint32_t draw(uint32_t *results)
{
    uint32_t sum = 0;
    for (uint32_t y = 0; y < HEIGHT; y++)
        for (uint32_t x = 0; x < WIDTH; x++)
            frame[y][x] = (uint8_t)(y / 8);
    for (uint32_t depth = DEPTHS; depth-- > 0;)
        for (uint32_t face = first_face[depth]; face != NONE; face = next_face[face])
            fill_face(face);
    for (uint32_t y = 0; y < HEIGHT; y++)
        for (uint32_t x = 0; x < WIDTH; x++)
            sum = sum * 31 + frame[y][x];
    results[0] = sum;
    return 1;
}

uint32_t renderer_program(uint32_t *results)
{
    uint32_t count = 0;
    make_torus();
    for (int32_t i = 0; i < FRAMES; i++) {
        set_view(100 + 90 * i, 60 * i, &places[i]);
        count += project_vertices(results + count);
        count += sort_faces(results + count);
        count += draw(results + count);
        if (i != 1)
            continue;
        for (uint32_t y = 0; y < HEIGHT; y++)
            for (uint32_t x = 0; x < WIDTH; x += 4)
                results[count++] = (uint32_t)frame[y][x] | (uint32_t)frame[y][x + 1] << 8
                                   | (uint32_t)frame[y][x + 2] << 16 | (uint32_t)frame[y][x + 3] << 24;
    }
    gte_set(LZCS, results[count - 1]);
    results[count++] = gte_get(LZCR);
    return count;
}
