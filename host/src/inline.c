/* Tries the inline functions of the header and what it has for draw lists over the library, as C11 or as C++; host/test-wrappers
   compiles and runs it. Prints each test that fails and, at the end, 'N passed, M failed'; the status is 1 if any failed. */
#include <stdio.h>
#include <string.h>

#include "fliskadee.h"

static uint8_t image[FLISKADEE_IMAGE_BYTES];
static uint8_t ram[65536];
static uint8_t pad[FLISKADEE_PAD_BYTES];
static const struct fliskadee_lent lent = {image, sizeof image, ram, sizeof ram, pad, sizeof pad};

static unsigned passed;
static unsigned failed;

static void check(int good, const char *title)
{
    if (good) {
        passed++;
    } else {
        failed++;
        printf("failed: %s\n", title);
    }
}

/* A machine with the GTE usable and a vertex 1000 away, which reads from the pad and writes both memories. */
static void put_machine(uint32_t first_of_pad)
{
    static const uint32_t program[] = {
        0x3C081F80, /* lui t0, 0x1F80 */
        0xC9000000, /* lwc2 VXY0, 0(t0) */
        0x8D020000, /* lw v0, 0(t0) */
        0x4A180001, /* rtps sf=1 lm=0 */
        0xAD020014, /* sw v0, 0x14(t0) */
        0xAC020100, /* sw v0, 0x100(r0) */
    };
    size_t i;

    fliskadee_fresh_image(image);
    fliskadee_set_word(image, FLISKADEE_WORD_SR, 0x40000000);
    fliskadee_set_word(image, FLISKADEE_WORD_COP2 + FLISKADEE_COP2_VZ0, 1000);
    for (i = 0; i < 5; i += 2)
        fliskadee_set_word(image, FLISKADEE_WORD_COP2 + FLISKADEE_COP2_RT + i, 0x1000);
    fliskadee_set_word(image, FLISKADEE_WORD_COP2 + FLISKADEE_COP2_H, 200);
    memset(ram, 0, sizeof ram);
    for (i = 0; i < sizeof program / sizeof program[0]; i++)
        fliskadee_set_word(ram, i, program[i]);
    memset(pad, 0, sizeof pad);
    fliskadee_set_word(pad, 0, first_of_pad);
}

static void try_run(void)
{
    uint64_t answer;

    put_machine(0x7FFF);
    answer = fliskadee_run_lent(&lent, 6);
    check(FLISKADEE_CODE(answer) == FLISKADEE_DONE && FLISKADEE_STEPS(answer) == 6, "a run");
    check(fliskadee_get_word(image, 2) == 0x7FFF, "the image is as after it");
    check(fliskadee_get_word(ram, 0x100 / 4) == 0x7FFF, "so is RAM");
    check(fliskadee_get_word(pad, 0x14 / 4) == 0x7FFF, "so is the pad");
    put_machine(0x7FFF);
    answer = fliskadee_run_lent(&lent, 2);
    check(FLISKADEE_STEPS(answer) == 2 && fliskadee_get_word(image, FLISKADEE_WORD_PC) == 8, "the count");
}

/* VX0 = 7FFFh is too far right: bit 14 comes up at step 4. */
static void try_find_flag(void)
{
    uint64_t answer;

    put_machine(0x7FFF);
    answer = fliskadee_find_flag_lent(&lent, 6, 1u << 14);
    check(FLISKADEE_CODE(answer) == FLISKADEE_FLAG_UP && FLISKADEE_STEPS(answer) == 4, "a flag by what the pad has");
    check(fliskadee_get_word(image, FLISKADEE_WORD_PC) == 16, "the image is as after the step");
    put_machine(0x7FFF);
    answer = fliskadee_find_flag_lent(&lent, 3, 1u << 14);
    check(FLISKADEE_CODE(answer) == FLISKADEE_DONE && FLISKADEE_STEPS(answer) == 3, "the count of a search");
    put_machine(0x7FFF);
    answer = fliskadee_find_flag_lent(&lent, 6, 1u << 17);
    check(FLISKADEE_CODE(answer) == FLISKADEE_DONE && FLISKADEE_STEPS(answer) == 6, "another bit");
    check(fliskadee_get_word(pad, 0x14 / 4) == 0x7FFF, "a search writes the pad");
    put_machine(0);
    answer = fliskadee_find_flag_lent(&lent, 6, 1u << 14);
    check(FLISKADEE_CODE(answer) == FLISKADEE_DONE && FLISKADEE_STEPS(answer) == 6, "no flag where the pad is zeros");
}

/* Both calls refuse with this code, and change nothing. */
static void refuse(size_t image_length, size_t ram_length, size_t pad_length, uint64_t count, unsigned code, const char *title)
{
    static uint8_t before[sizeof image + sizeof ram + sizeof pad];
    const struct fliskadee_lent other = {image, image_length, ram, ram_length, pad, pad_length};
    uint64_t answers[2];

    memcpy(before, image, sizeof image);
    memcpy(before + sizeof image, ram, sizeof ram);
    memcpy(before + sizeof image + sizeof ram, pad, sizeof pad);
    answers[0] = fliskadee_run_lent(&other, count);
    answers[1] = fliskadee_find_flag_lent(&other, count, 1u << 14);
    check(answers[0] == (uint64_t)code << 20, title);
    check(answers[1] == (uint64_t)code << 20, title);
    check(memcmp(before, image, sizeof image) == 0 && memcmp(before + sizeof image, ram, sizeof ram) == 0
              && memcmp(before + sizeof image + sizeof ram, pad, sizeof pad) == 0,
          title);
}

static void try_refusals(void)
{
    const uint64_t many = FLISKADEE_MOST_STEPS + 1;

    put_machine(0x7FFF);
    refuse(431, 6, 1020, many, FLISKADEE_REFUSED_IMAGE_LENGTH, "1 comes first");
    refuse(432, 6, 1020, many, FLISKADEE_REFUSED_RAM_LENGTH, "3 before 6");
    refuse(432, sizeof ram, 1020, many, FLISKADEE_REFUSED_PAD_LENGTH, "6 before 4");
    refuse(432, sizeof ram, sizeof pad, many, FLISKADEE_REFUSED_COUNT, "4 comes last");
    refuse(432, sizeof ram, 0, 1, FLISKADEE_REFUSED_PAD_LENGTH, "no pad");
    refuse(432, sizeof ram, 1023, 0, FLISKADEE_REFUSED_PAD_LENGTH, "a byte too few, and no steps");
    refuse(432, sizeof ram, 1025, 1, FLISKADEE_REFUSED_PAD_LENGTH, "a byte too many");
    fliskadee_set_word(image, 0, 1);
    refuse(432, 6, 1020, many, FLISKADEE_REFUSED_IMAGE_FORM, "2 before 3");
}

static uint8_t *window(uint32_t address, uint64_t length)
{
    return fliskadee_window_bytes(ram, sizeof ram, pad, sizeof pad, address, length);
}

static void try_window(void)
{
    uint64_t part;

    check(window(0, 4) == ram, "RAM's beginning");
    check(window(0x00000123, 5) == ram + 0x123, "RAM, at any byte");
    check(window(0x80000100, 4) == ram + 0x100, "RAM through 100");
    check(window(0xA0000100, 4) == ram + 0x100, "RAM through 101");
    check(window(0, sizeof ram) == ram, "all of RAM");
    check(window(0x1F800000, 4) == pad, "the pad's beginning");
    check(window(0x1F800011, 3) == pad + 0x11, "the pad, at any byte");
    check(window(0x9F8003FC, 4) == pad + 0x3FC, "the pad through 100, to its end");
    check(window(0x1F800000, sizeof pad) == pad, "all of the pad");

    check(window(0, sizeof ram + 1) == NULL, "more than RAM");
    check(window(0x0000FFFD, 4) == NULL, "over RAM's end");
    check(window(0x00010000, 1) == NULL, "behind RAM");
    check(window(0x1F7FFFFF, 2) == NULL, "from before the pad");
    check(window(0x1F800000, sizeof pad + 1) == NULL, "more than the pad");
    check(window(0x1F8003FD, 4) == NULL, "over the pad's end");
    check(window(0x1F800400, 1) == NULL, "behind the pad");
    check(window(0xBF800000, 4) == NULL, "the pad through 101");
    check(window(0xC0000000, 4) == NULL, "another segment");
    check(window(0x3F800000, 4) == NULL, "the pad's address in another segment");
    check(window(0, (uint64_t)1 << 32) == NULL, "a length of 33 bits, in RAM");
    check(window(0x1F800000, ((uint64_t)1 << 32) + 4) == NULL, "a length of 33 bits, in the pad");
    check(window(0x100, 0) == NULL, "no byte of RAM");
    check(window(0x1F800010, 0) == NULL, "no byte of the pad");
    check(fliskadee_window_bytes(ram, sizeof ram, pad, 5, 0x100, 4) == NULL, "RAM beside a bad pad");
    check(fliskadee_window_bytes(ram, sizeof ram, pad, 1020, 0x1F800000, 4) == NULL, "a bad pad");
    check(fliskadee_window_bytes(ram, 6, pad, sizeof pad, 0x1F800000, 4) == NULL, "the pad beside a bad RAM");
    check(fliskadee_window_bytes(ram, 6, pad, sizeof pad, 0, 4) == NULL, "a bad RAM");

    part = fliskadee_window(ram, sizeof ram, pad, sizeof pad, 0x9F800010, 8);
    check(FLISKADEE_WINDOW_IN_PAD(part) == 1 && FLISKADEE_WINDOW_PLACE(part) == 0x10 && FLISKADEE_WINDOW_LENGTH(part) == 8,
          "a part of the pad");
    part = fliskadee_window(ram, sizeof ram, pad, sizeof pad, 0x80000010, 8);
    check(FLISKADEE_WINDOW_IN_PAD(part) == 0 && FLISKADEE_WINDOW_PLACE(part) == 0x10 && FLISKADEE_WINDOW_LENGTH(part) == 8,
          "a part of RAM");
    part = fliskadee_window(ram, sizeof ram, pad, sizeof pad, 0x1F800010, 0);
    check(FLISKADEE_WINDOW_IN_PAD(part) == 1 && FLISKADEE_WINDOW_PLACE(part) == 0x10 && FLISKADEE_WINDOW_LENGTH(part) == 0,
          "an empty part at a place of the pad");
    check(fliskadee_window(ram, sizeof ram, pad, sizeof pad, 0xBF800000, 8) == 0, "an empty part");
}

/* Block by block, as the header lists the fields. */
static size_t plain_bytes(size_t ram_length)
{
    size_t bytes = 3 + 176 + 3 + 256 + 3 + FLISKADEE_PAD_BYTES + 3;

    while (ram_length > 0) {
        size_t block = ram_length < FLISKADEE_BLOCK_BYTES ? ram_length : FLISKADEE_BLOCK_BYTES;

        bytes += 3 + block;
        ram_length -= block;
    }
    return bytes;
}

enum { MOST_LENGTH = 200000 };

static void try_lengths(void)
{
    static size_t expected[MOST_LENGTH + 1]; /* RAM by the bytes of its file, 0 where there is none */
    size_t length, bytes, other = 0;

    for (length = 0; length <= MOST_LENGTH; length++) {
        bytes = plain_bytes(length);
        other += fliskadee_saved_bytes(length) != bytes;
        if (bytes <= MOST_LENGTH)
            expected[bytes] = length;
    }
    check(other == 0, "the bytes of a file");
    other = 0;
    for (length = 0; length <= MOST_LENGTH; length++)
        other += fliskadee_saved_ram(length) != expected[length];
    check(other == 0, "the RAM of a file, back");
    other = 0;
    for (length = 4; length <= FLISKADEE_MOST_RAM; length += 4)
        other += fliskadee_saved_ram(fliskadee_saved_bytes(length)) != length;
    check(other == 0, "every RAM that can be saved");

    check(fliskadee_saved_bytes(4) == 1475, "4 bytes of RAM");
    check(fliskadee_saved_bytes(FLISKADEE_MOST_RAM) == FLISKADEE_MOST_SAVED_BYTES, "the greatest RAM");
    check(fliskadee_saved_ram(FLISKADEE_MOST_SAVED_BYTES) == FLISKADEE_MOST_RAM, "the greatest RAM, back");
    check(fliskadee_saved_ram(0) == 0 && fliskadee_saved_ram(1468) == 0 && fliskadee_saved_ram(1471) == 0, "too short for RAM");
    check(fliskadee_saved_ram(1472) == 1, "a byte of RAM");
    check(fliskadee_saved_ram(34239) == 32768, "a full block");
    check(fliskadee_saved_ram(34240) == 0 && fliskadee_saved_ram(34242) == 0, "a full block and an empty one");
    check(fliskadee_saved_ram(34243) == 32769, "a full block and a byte");
    check(fliskadee_saved_ram(SIZE_MAX) == 18445055378453954387u, "the greatest length");
    check(fliskadee_saved_bytes(18445055378453954387u) == SIZE_MAX, "the greatest length, back");
    check(fliskadee_saved_ram(SIZE_MAX - 32596) == 0, "none of a very great length");
}

static uint8_t file[70000];
static uint8_t loaded_image[FLISKADEE_IMAGE_BYTES];
static uint8_t loaded_ram[sizeof ram];
static uint8_t loaded_pad[FLISKADEE_PAD_BYTES];
static const struct fliskadee_lent loaded = {loaded_image, sizeof loaded_image, loaded_ram, sizeof loaded_ram, loaded_pad,
                                             sizeof loaded_pad};

static int answered(struct fliskadee_answer answer, uint64_t code, uint64_t number)
{
    return answer.code == code && answer.number == number;
}

/* A machine of two full blocks, saved and loaded. */
static void try_save_and_load(void)
{
    const size_t bytes = fliskadee_saved_bytes(sizeof ram);

    put_machine(0x7FFF);
    ram[40000] = 0x5A;
    memset(file, 0xA5, sizeof file);
    check(answered(fliskadee_save_lent(&lent, file, bytes - 1), FLISKADEE_REFUSED_SPACE, 0) && file[0] == 0xA5, "a short space");
    check(answered(fliskadee_save_lent(&lent, file, sizeof file), FLISKADEE_DONE, bytes), "a save");
    check(file[bytes] == 0xA5 && file[sizeof file - 1] == 0xA5, "the rest of the space is as before");
    check(file[0] == 1 && file[3 + 4 * FLISKADEE_WORD_SR + 3] == 0x40, "the image in the file");
    check(memcmp(file + 441, ram, 32768) == 0 && memcmp(file + 441 + 32771, ram + 32768, 32768) == 0, "the RAM in the file");
    check(memcmp(file + bytes - 3 - sizeof pad, pad, sizeof pad) == 0, "the pad in the file");

    check(answered(fliskadee_load_lent(file, bytes + 1, &loaded), FLISKADEE_REFUSED_FILE, bytes), "a byte behind the end");
    check(answered(fliskadee_load_lent(file, 1000, &loaded), FLISKADEE_REFUSED_FILE, 1000), "a file that ends too early");
    check(answered(fliskadee_load_lent(file, bytes, &loaded), FLISKADEE_DONE, 0), "a load");
    check(memcmp(loaded_image, image, sizeof image) == 0, "the same image");
    check(memcmp(loaded_ram, ram, sizeof ram) == 0, "the same RAM");
    check(memcmp(loaded_pad, pad, sizeof pad) == 0, "the same pad");
    check(fliskadee_run_lent(&loaded, 6) == fliskadee_run_lent(&lent, 6), "it runs as the other");
    check(memcmp(loaded_image, image, sizeof image) == 0 && memcmp(loaded_pad, pad, sizeof pad) == 0, "and comes to the same");
}

/* Each length goes to its own buffer, and the codes have their order. */
static void try_saved_refusals(void)
{
    static const struct {
        size_t image_length, ram_length, pad_length;
        unsigned code;
    } cases[] = {
        {431, 6, 1020, FLISKADEE_REFUSED_IMAGE_LENGTH},
        {432, 6, 1020, FLISKADEE_REFUSED_RAM_LENGTH},
        {432, sizeof ram, 1020, FLISKADEE_REFUSED_PAD_LENGTH},
    };
    const struct fliskadee_lent less = {image, sizeof image, ram, sizeof ram - 4, pad, sizeof pad};
    const size_t bytes = fliskadee_saved_bytes(sizeof ram);
    size_t i;

    put_machine(0x7FFF);
    fliskadee_save_lent(&lent, file, sizeof file);
    for (i = 0; i < sizeof cases / sizeof cases[0]; i++) {
        const struct fliskadee_lent other = {image, cases[i].image_length, ram, cases[i].ram_length, pad, cases[i].pad_length};

        check(answered(fliskadee_save_lent(&other, file, 0), cases[i].code, 0), "a save with a wrong length");
        check(answered(fliskadee_load_lent(file, 0, &other), cases[i].code, 0), "a load with a wrong length");
    }
    check(answered(fliskadee_load_lent(file, bytes, &less), FLISKADEE_REFUSED_SPACE, 0), "another RAM");
    file[3] = 1; /* register 0 */
    check(answered(fliskadee_load_lent(file, bytes, &less), FLISKADEE_REFUSED_IMAGE_FORM, 0), "the file's image comes first");
    fliskadee_set_word(image, 0, 1);
    check(answered(fliskadee_save_lent(&lent, file, 0), FLISKADEE_REFUSED_IMAGE_FORM, 0), "an image, before a short space");
}

/* A packet of four words, and a polyline of two points. */
static void try_draw_list(void)
{
    uint32_t words[] = {0x20FFFFFF, 0, 1, FLISKADEE_POLYLINE_END, 0x48FFFFFF, 0, 1, FLISKADEE_POLYLINE_END};
    const size_t all = sizeof words / sizeof words[0];

    check(answered(fliskadee_draw_list(words, all), FLISKADEE_DONE, 2), "a draw list");
    check(answered(fliskadee_draw_list(words, all - 1), FLISKADEE_REFUSED_PACKET_SHORT, 4), "a polyline without its end");
    check(answered(fliskadee_draw_list(words, 3), FLISKADEE_REFUSED_PACKET_SHORT, 0), "a packet that is cut short");
    check(answered(fliskadee_draw_list(words, 0), FLISKADEE_DONE, 0), "an empty list");
    check(answered(fliskadee_draw_list(NULL, 0), FLISKADEE_DONE, 0), "no list");
    words[6] = FLISKADEE_POLYLINE_END;
    check(answered(fliskadee_draw_list(words, all), FLISKADEE_REFUSED_PACKET_SHORT, 4), "a polyline of one point");
    words[4] = FLISKADEE_POLYLINE_END;
    check(answered(fliskadee_draw_list(words, all), FLISKADEE_REFUSED_PACKET_BYTE, 4), "an unknown byte");
    check(FLISKADEE_REFUSED_PACKET_BYTE == 11 && FLISKADEE_REFUSED_PACKET_SHORT == 12, "the codes of draw lists");
}

int main(void)
{
    try_run();
    try_find_flag();
    try_refusals();
    try_window();
    try_lengths();
    try_save_and_load();
    try_saved_refusals();
    try_draw_list();
    printf("%u passed, %u failed\n", passed, failed);
    return failed == 0 ? 0 : 1;
}
