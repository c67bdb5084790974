/* Random test cases, each made from a seed and a case number alone. */
#ifndef GENERATE_H
#define GENERATE_H

#include <stdbool.h>
#include <stddef.h>
#include <stdint.h>

#define CASE_IMAGE_CAPACITY 4096
#define CASE_RAM_CAPACITY 4194304
#define CASE_PAD_CAPACITY 4096

/* What the generator meant the run to answer; it is checked against the model. */
enum expectation {
    EXPECT_RUN = 0, /* code 0 or 5 */
    EXPECT_1 = 1,
    EXPECT_2 = 2,
    EXPECT_3 = 3,
    EXPECT_4 = 4,
    EXPECT_6 = 6,
    EXPECT_ANY = -1
};

/* What a window is asked for; the memories need not be the case's own. */
struct window {
    size_t ram_length; /* at most CASE_RAM_CAPACITY */
    size_t pad_length; /* at most CASE_PAD_CAPACITY */
    uint32_t address;
    uint64_t length;
};

#define CASE_WINDOWS 12

/* What the causes of FLAG's bits are asked for, on the case's image. */
struct question {
    uint32_t command;
    int32_t spare; /* words lent beyond those that the rows need; below 0, too few */
};

#define CASE_QUESTIONS 3
#define QUESTION_CAPACITY 1000 /* words */

/* A machine to save, which is the case's but for its RAM, and a file to load. */
struct saved_case {
    const uint8_t *ram; /* the case's, or a longer one */
    size_t ram_length;
    size_t space_length; /* at most CASE_FILE_CAPACITY */

    const char *kind; /* of the file */
    const uint8_t *file;
    size_t file_length; /* at most CASE_FILE_CAPACITY */
    size_t lent_image_length, lent_ram_length, lent_pad_length; /* to the load */
};

#define CASE_SAVED 2
#define CASE_FILE_CAPACITY 2200000

/* Words for the graphics unit. */
struct draw_list {
    const char *kind;
    const uint32_t *words;
    size_t length; /* at most CASE_LIST_CAPACITY */
    bool at_beginning; /* of its area, and not at the end */
};

#define CASE_LISTS 2
#define CASE_LIST_CAPACITY 2000 /* words */

struct test_case {
    const char *kind;
    uint8_t *image; /* room for CASE_IMAGE_CAPACITY bytes */
    size_t image_length;
    uint8_t *ram; /* room for CASE_RAM_CAPACITY bytes */
    size_t ram_length;
    uint8_t *pad; /* room for CASE_PAD_CAPACITY bytes */
    size_t pad_length;
    uint64_t count;
    uint64_t search_count; /* refused just when count is, but mostly smaller where count is large, to save time */
    uint32_t mask; /* of the search */
    enum expectation expected;
    uint64_t placement; /* random bits for where the buffers lie and where a run is cut in two */
    struct window windows[CASE_WINDOWS];
    struct question questions[CASE_QUESTIONS];
    uint64_t saved_seeds[CASE_SAVED], list_seeds[CASE_LISTS];
};

void generate_case(struct test_case *c, uint64_t seed, uint64_t number);

/* The saved case of this number, from the case as it was generated. RAM and file may stand in room that the next call uses. */
void generate_saved(struct saved_case *s, const struct test_case *c, unsigned number);

/* The draw list of this number. Its words stand in room that the next call uses. */
void generate_list(struct draw_list *l, const struct test_case *c, unsigned number);

/* The words that the question lends where its rows need so many, at most QUESTION_CAPACITY. */
size_t question_space(const struct question *q, size_t needed);

#endif
