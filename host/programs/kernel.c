/* A small kernel: every exception is taken, told apart, mended where that makes sense, and returned from by RFE.
   Unaligned loads and stores are carried out in its stead, an invented instruction is carried out, the GTE is switched
   on at its first use, and a task in user mode calls services.
   On the host each function records what the papers say that the machine does. */
#include "program.h"

#include "gte.h"

enum { ADEL = 4, ADES = 5, IBE = 6, DBE = 7, SYSCALL = 8, BREAK = 9, RI = 10, CPU = 11, OVERFLOW = 12 };
enum { SERVICE_EXIT, SERVICE_DIVISOR, SERVICE_REVERSE, SERVICE_MIX };

/* Volatile, as the handler changes them between any two instructions. */
static uint32_t *volatile record;
static volatile uint32_t recorded;
static uint8_t bytes[16] = {0x10, 0x91, 0x22, 0xA3, 0x34, 0xB5, 0x46, 0xC7,
                            0x58, 0xD9, 0x6A, 0xEB, 0x7C, 0xFD, 0x8E, 0x0F};

static void put(uint32_t word)
{
    uint32_t index = recorded;
    record[index] = word;
    recorded = index + 1;
}

/* What is recorded of an exception: its code, the coprocessor, and whether it was in a delay slot. */
static void put_exception(uint32_t code, uint32_t coprocessor, uint32_t delayed)
{
    put(code | coprocessor << 8 | delayed << 12);
}

static uint32_t population(uint32_t word)
{
    uint32_t count = 0;
    for (; word != 0; word &= word - 1)
        count++;
    return count;
}

static uint32_t service(uint32_t number, uint32_t a, uint32_t b)
{
    uint32_t result = 0;
    switch (number) {
    case SERVICE_DIVISOR:
        while (b != 0) {
            uint32_t rest = a % b;
            a = b;
            b = rest;
        }
        return a;
    case SERVICE_REVERSE:
        for (uint32_t i = 0; i < 32; i++)
            result |= (a >> i & 1) << (31 - i);
        return result;
    case SERVICE_MIX: return a * 2654435761u ^ b;
    default: return 0;
    }
}

#ifdef __mips__

/* The registers at an exception, in the order in which kernel_entry stores them. */
struct frame {
    uint32_t general[32];
    uint32_t hi, lo, sr, cause, epc, badv;
};

struct frame kernel_frame;
uint32_t kernel_stack[256];

__asm__(".text\n"
        ".set push\n"
        ".set noreorder\n"
        ".set noat\n"
        "kernel_entry:\n"
        "    lui $26, %hi(kernel_frame)\n"
        "    addiu $26, $26, %lo(kernel_frame)\n"
        "    .irp r, 1,2,3,4,5,6,7,8,9,10,11,12,13,14,15,16,17,18,19,20,21,22,23,24,25,28,29,30,31\n"
        "    sw $\\r, 4*\\r($26)\n"
        "    .endr\n"
        "    mfhi $8\n"
        "    mflo $9\n"
        "    mfc0 $10, $12\n"
        "    mfc0 $11, $13\n"
        "    mfc0 $12, $14\n"
        "    mfc0 $13, $8\n"
        "    sw $8, 128($26)\n"
        "    sw $9, 132($26)\n"
        "    sw $10, 136($26)\n"
        "    sw $11, 140($26)\n"
        "    sw $12, 144($26)\n"
        "    sw $13, 148($26)\n"
        "    lui $29, %hi(kernel_stack + 992)\n"
        "    jal kernel_handle\n"
        "    addiu $29, $29, %lo(kernel_stack + 992)\n"
        "    lui $26, %hi(kernel_frame)\n"
        "    addiu $26, $26, %lo(kernel_frame)\n"
        "    lw $8, 128($26)\n"
        "    lw $9, 132($26)\n"
        "    mthi $8\n"
        "    lw $10, 136($26)\n"
        "    mtlo $9\n"
        "    mtc0 $10, $12\n"
        "    .irp r, 1,2,3,4,5,6,7,8,9,10,11,12,13,14,15,16,17,18,19,20,21,22,23,24,25,28,29,30,31\n"
        "    lw $\\r, 4*\\r($26)\n"
        "    .endr\n"
        "    lw $27, 144($26)\n"
        "    nop\n"
        "    jr $27\n"
        "    rfe\n"
        /* Called by the kernel; the task returns by SERVICE_EXIT, with register 31 still as the call left it. */
        "kernel_enter_user:\n"
        "    mfc0 $8, $12\n"
        "    lui $9, %hi(user_task)\n"
        "    ori $8, $8, 8\n"
        "    addiu $9, $9, %lo(user_task)\n"
        "    sll $9, $9, 3\n"
        "    srl $9, $9, 3\n"
        "    mtc0 $8, $12\n"
        "    jr $9\n"
        "    rfe\n"
        "user_task:\n"
        "    addiu $2, $0, 1\n"      /* SERVICE_DIVISOR of 1071 and 462 */
        "    addiu $4, $0, 1071\n"
        "    addiu $5, $0, 462\n"
        "    syscall\n"
        "    addu $5, $2, $0\n"      /* SERVICE_MIX of the result with itself */
        "    addu $4, $2, $0\n"
        "    addiu $2, $0, 3\n"
        "    syscall\n"
        "    lui $8, 0x8001\n"       /* kernel addresses and COP0 are refused in user mode */
        "    lw $9, 0($8)\n"
        "    sw $9, 4($8)\n"
        "    mfc0 $9, $12\n"
        "    addiu $2, $0, 0\n"
        "    syscall\n"
        ".set pop\n");

void kernel_entry(void);
void kernel_enter_user(void);

/* The place after an instruction; in a delay slot it is the branch's target, taken always as here. */
static uint32_t place_after(const struct frame *f)
{
    if (f->cause >> 31 == 0)
        return f->epc + 4;
    uint32_t branch = *(const uint32_t *)f->epc;
    return f->epc + 4 + (uint32_t)((int32_t)(int16_t)(uint16_t)branch * 4);
}

static void mend_unaligned(struct frame *f, uint32_t word)
{
    uint8_t *place = (uint8_t *)f->badv;
    uint32_t *rt = &f->general[word >> 16 & 31];
    put(f->badv - (uint32_t)bytes);
    switch (word >> 26) {
    case 0x21: *rt = (uint32_t)(int32_t)(int16_t)(uint16_t)(place[0] | place[1] << 8); break;
    case 0x23: *rt = place[0] | place[1] << 8 | place[2] << 16 | (uint32_t)place[3] << 24; break;
    case 0x25: *rt = (uint32_t)(place[0] | place[1] << 8); break;
    case 0x29:
    case 0x2B:
        for (uint32_t i = 0; i < (word >> 26 == 0x29 ? 2 : 4); i++)
            place[i] = (uint8_t)(*rt >> 8 * i);
        break;
    }
}

void kernel_handle(void)
{
    struct frame *f = &kernel_frame;
    uint32_t code = f->cause >> 2 & 31;
    uint32_t delayed = f->cause >> 31;
    uint32_t coprocessor = f->cause >> 28 & 3;
    uint32_t next = place_after(f);
    uint32_t user = f->sr & 8;
    put_exception(code, coprocessor, delayed);
    if (code == IBE) {
        f->epc = f->general[31];
        return;
    }
    uint32_t word = *(const uint32_t *)(f->epc + 4 * delayed);
    if ((code == ADEL || code == ADES) && user != 0) {
        put(f->badv);
    } else if (code == ADEL || code == ADES) {
        mend_unaligned(f, word);
    } else if (code == SYSCALL && user != 0 && f->general[2] == SERVICE_EXIT) {
        f->sr &= ~(uint32_t)8;
        next = f->general[31];
    } else if (code == SYSCALL) {
        f->general[2] = service(f->general[2], f->general[4], f->general[5]);
        if (user != 0)
            put(f->general[2]);
    } else if (code == BREAK) {
        put(word >> 6);
    } else if (code == RI) {
        f->general[word >> 11 & 31] = population(f->general[word >> 21 & 31]);
    } else if (code == CPU && coprocessor == 2) {
        f->sr |= (uint32_t)1 << 30;
        next = f->epc;
    }
    f->epc = next;
}

#define VECTOR ((volatile uint32_t *)0x80000080)

static void install(uint32_t kept[4])
{
    uint32_t entry = (uint32_t)kernel_entry;
    for (uint32_t i = 0; i < 4; i++)
        kept[i] = VECTOR[i];
    VECTOR[0] = 0x3C1A0000 | entry >> 16;     /* lui k0 */
    VECTOR[1] = 0x375A0000 | (entry & 0xFFFF); /* ori k0, k0 */
    VECTOR[2] = 0x03400008;                    /* jr k0 */
    VECTOR[3] = 0;
}

static void remove_again(const uint32_t kept[4])
{
    for (uint32_t i = 0; i < 4; i++)
        VECTOR[i] = kept[i];
}

static void try_overflow(void)
{
    uint32_t sum = 77;
    __asm__ volatile("add %0, %1, %2" : "+r"(sum) : "r"(0x7FFFFFFF), "r"(1) : "memory");
    put(sum);
    __asm__ volatile("sub %0, %1, %2" : "+r"(sum) : "r"(0x80000000), "r"(1) : "memory");
    put(sum);
}

#define try_load(instruction, offset)                                                             \
    do {                                                                                          \
        uint32_t loaded_ = 0;                                                                     \
        __asm__ volatile(instruction " %0, 0(%1)\n\tnop" : "+r"(loaded_) : "r"(bytes + (offset)) : "memory"); \
        put(loaded_);                                                                             \
    } while (0)

#define try_store(instruction, offset, value) \
    __asm__ volatile(instruction " %0, 0(%1)" : : "r"(value), "r"(bytes + (offset)) : "memory")

static void try_unaligned(void)
{
    try_load("lw", 1);
    try_load("lw", 6);
    try_load("lh", 3);
    try_load("lhu", 9);
    try_store("sw", 2, 0x89ABCDEF);
    try_store("sh", 13, 0x1234);
}

/* The store's exception names the branch before it, and the return goes to the branch's target. */
static void try_delay_slot(void)
{
    uint32_t passed = 5;
    __asm__ volatile(".set push\n\t.set noreorder\n\tbeq $0, $0, 1f\n\tsw %1, 0(%2)\n\taddiu %0, %0, 1\n1:\n\t.set pop"
                     : "+r"(passed)
                     : "r"(0x01020304), "r"(bytes + 7)
                     : "memory");
    put(passed);
}

static uint32_t call(uint32_t number, uint32_t a, uint32_t b)
{
    register uint32_t v0 __asm__("$2") = number;
    register uint32_t a0 __asm__("$4") = a;
    register uint32_t a1 __asm__("$5") = b;
    __asm__ volatile("syscall" : "+r"(v0) : "r"(a0), "r"(a1) : "memory");
    return v0;
}

static void try_break(void)
{
    __asm__ volatile(".word 0x0012340D" : : : "memory");
}

/* The exception comes while the load still waits; the handler already sees it in its register. */
static void try_waiting_load(void)
{
    uint32_t loaded = 1;
    __asm__ volatile(".set push\n\t.set noreorder\n\tlw %0, 0(%1)\n\t.word 0x0000004D\n\t.set pop"
                     : "+r"(loaded)
                     : "r"(bytes)
                     : "memory");
    put(loaded);
}

static uint32_t invented(uint32_t word)
{
    register uint32_t v0 __asm__("$2") = 0;
    register uint32_t a0 __asm__("$4") = word;
    __asm__ volatile(".word 0x70801000" : "+r"(v0) : "r"(a0) : "memory"); /* opcode 1Ch, rs = a0, rd = v0 */
    return v0;
}

static void try_coprocessors(void)
{
    __asm__ volatile("mtc0 $0, $12\n\t.word 0x44020000\n\t.word 0x4C020000" : : : "memory", "$2");
    gte_set(LZCS, 0x000FFFFF);
    put(gte_get(LZCR));
}

static void try_bus(void)
{
    uint32_t kept = 9;
    __asm__ volatile(".set push\n\t.set noreorder\n\tlui $8, 0x9FC0\n\tlw %0, 0($8)\n\tnop\n\tsw %0, 4($8)\n\t"
                     "jalr $8\n\tnop\n\t.set pop"
                     : "+r"(kept)
                     :
                     : "memory", "$8", "$31");
    put(kept);
}

#else

static void install(uint32_t kept[4])
{
    kept[0] = 0;
}

static void remove_again(const uint32_t kept[4])
{
    (void)kept;
}

static void try_overflow(void)
{
    for (uint32_t i = 0; i < 2; i++) {
        put_exception(OVERFLOW, 0, 0);
        put(77);
    }
}

static uint32_t gather(uint32_t offset, uint32_t length)
{
    uint32_t word = 0;
    for (uint32_t i = 0; i < length; i++)
        word |= (uint32_t)bytes[offset + i] << 8 * i;
    return word;
}

static void scatter(uint32_t offset, uint32_t length, uint32_t word)
{
    for (uint32_t i = 0; i < length; i++)
        bytes[offset + i] = (uint8_t)(word >> 8 * i);
}

static void try_load(uint32_t offset, uint32_t length, uint32_t sign)
{
    put_exception(ADEL, 0, 0);
    put(offset);
    put((gather(offset, length) ^ sign) - sign);
}

static void try_store(uint32_t offset, uint32_t length, uint32_t value, uint32_t delayed)
{
    put_exception(ADES, 0, delayed);
    put(offset);
    scatter(offset, length, value);
}

static void try_unaligned(void)
{
    try_load(1, 4, 0);
    try_load(6, 4, 0);
    try_load(3, 2, 0x8000);
    try_load(9, 2, 0);
    try_store(2, 4, 0x89ABCDEF, 0);
    try_store(13, 2, 0x1234, 0);
}

static void try_delay_slot(void)
{
    try_store(7, 4, 0x01020304, 1);
    put(5);
}

static uint32_t call(uint32_t number, uint32_t a, uint32_t b)
{
    put_exception(SYSCALL, 0, 0);
    return service(number, a, b);
}

static void try_break(void)
{
    put_exception(BREAK, 0, 0);
    put(0x48D0);
}

static void try_waiting_load(void)
{
    put_exception(BREAK, 0, 0);
    put(1);
    put(gather(0, 4));
}

static uint32_t invented(uint32_t word)
{
    put_exception(RI, 0, 0);
    return population(word);
}

static void try_coprocessors(void)
{
    put_exception(CPU, 1, 0);
    put_exception(CPU, 3, 0);
    put_exception(CPU, 2, 0);
    put(12);
}

static void try_bus(void)
{
    put_exception(DBE, 0, 0);
    put_exception(DBE, 0, 0);
    put_exception(IBE, 0, 0);
    put(9);
}

static void kernel_enter_user(void)
{
    put_exception(SYSCALL, 0, 0);
    put(21);
    put_exception(SYSCALL, 0, 0);
    put(service(SERVICE_MIX, 21, 21));
    put_exception(ADEL, 0, 0);
    put(0x80010000);
    put_exception(ADES, 0, 0);
    put(0x80010004);
    put_exception(CPU, 0, 0);
    put_exception(SYSCALL, 0, 0);
}

#endif

uint32_t kernel_program(uint32_t *results)
{
    uint32_t kept[4];
    uint32_t state = 0xABCDEF01;
    record = results;
    recorded = 0;
    install(kept);
    try_overflow();
    try_unaligned();
    try_delay_slot();
    for (uint32_t i = 0; i < sizeof bytes; i++)
        put(bytes[i]);
    for (uint32_t i = 0; i < 60; i++) {
        uint32_t a = next_random(&state);
        put(call(1 + i % 3, a, next_random(&state)));
        put(invented(a));
    }
    try_break();
    try_waiting_load();
    try_coprocessors();
    try_bus();
    kernel_enter_user();
    remove_again(kept);
    return recorded;
}
