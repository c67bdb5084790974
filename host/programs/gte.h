/* The GTE as programs use it. On the machine these are instructions; on the host a plain function for each command
   that the programs use: RTPS, RTPT, NCLIP, AVSZ3 and AVSZ4, all with sf = 1, without 44-bit overflow. */
#ifndef FLISKADEE_PROGRAM_GTE_H
#define FLISKADEE_PROGRAM_GTE_H

#include "program.h"

/* Data registers. */
enum { VXY0 = 0, VZ0 = 1, VXY1 = 2, VZ1 = 3, VXY2 = 4, VZ2 = 5, OTZ = 7, IR0 = 8, IR1 = 9, IR2 = 10, IR3 = 11 };
enum { SXY0 = 12, SXY1 = 13, SXY2 = 14, SXYP = 15, SZ0 = 16, SZ1 = 17, SZ2 = 18, SZ3 = 19, MAC0 = 24, MAC1 = 25 };
enum { LZCS = 30, LZCR = 31 };
/* Control registers, counted from 0. */
enum { RT11RT12 = 0, RT13RT21 = 1, RT22RT23 = 2, RT31RT32 = 3, RT33 = 4, TRX = 5, TRY = 6, TRZ = 7 };
enum { OFX = 24, OFY = 25, H = 26, DQA = 27, DQB = 28, ZSF3 = 29, ZSF4 = 30, FLAG = 31 };

#ifdef __mips__

#define gte_set(number, value) __asm__ volatile("mtc2 %0, $%1" : : "r"((uint32_t)(value)), "i"(number))
#define gte_set_control(number, value) __asm__ volatile("ctc2 %0, $%1" : : "r"((uint32_t)(value)), "i"(number))
#define gte_load(number, place) __asm__ volatile("lwc2 $%1, %0" : : "m"(*(place)), "i"(number))
#define gte_store(number, place) __asm__ volatile("swc2 $%1, %0" : "=m"(*(place)) : "i"(number))
/* The value arrives one instruction late. */
#define gte_get(number)                                                                  \
    (__extension__({                                                                     \
        uint32_t got_;                                                                   \
        __asm__ volatile("mfc2 %0, $%1\n\tnop" : "=r"(got_) : "i"(number));              \
        got_;                                                                            \
    }))
#define gte_get_control(number)                                                          \
    (__extension__({                                                                     \
        uint32_t got_;                                                                   \
        __asm__ volatile("cfc2 %0, $%1\n\tnop" : "=r"(got_) : "i"(number));              \
        got_;                                                                            \
    }))
#define gte_rtps() __asm__ volatile(".word 0x4A180001")
#define gte_rtpt() __asm__ volatile(".word 0x4A280030")
#define gte_nclip() __asm__ volatile(".word 0x4B400006")
#define gte_avsz3() __asm__ volatile(".word 0x4B58002D")
#define gte_avsz4() __asm__ volatile(".word 0x4B68002E")

#else

void gte_set(uint32_t number, uint32_t value);
void gte_set_control(uint32_t number, uint32_t value);
void gte_load(uint32_t number, const uint32_t *place);
void gte_store(uint32_t number, uint32_t *place);
uint32_t gte_get(uint32_t number);
uint32_t gte_get_control(uint32_t number);
void gte_rtps(void);
void gte_rtpt(void);
void gte_nclip(void);
void gte_avsz3(void);
void gte_avsz4(void);

#endif

#endif
