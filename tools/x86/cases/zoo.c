/* SPDX-License-Identifier: Apache-2.0
 *
 * Stores, cleans and fences of many shapes. Behind each line stand the events that it means, by docs/X86.md: those of hart 0,
 * and h1 for the hart that a thread's clflushes have. tools/x86/test compares them with what the tracer writes of that line, and
 * the tracer with the second one. The file is zeros at first.
 */
#include <fcntl.h>
#include <immintrin.h>
#include <sys/mman.h>
#include <unistd.h>
#include "novacrash_marks.h"

#define PUT(type, offset) (*(volatile type *)(p + (offset)))
#define AT(instruction, offset) __asm__ volatile(instruction : : "r"(p + (offset)) : "memory", "cc", "rax")
#define EXCHANGE(instruction, offset, value) do { \
        long value_ = (value); __asm__ volatile(instruction : "+r"(value_) : "r"(p + (offset)) : "memory", "cc"); } while (0)
#define COMPARE(offset, new, expected) do { \
        long expected_ = (expected); \
        __asm__ volatile("lock cmpxchgq %1, (%2)" : "+a"(expected_) : "r"((long)(new)), "r"(p + (offset)) : "memory", "cc"); } while (0)
#define COMPARE_TWO(offset, low, high) do { \
        long zero_ = 0, other_ = 0; \
        __asm__ volatile("lock cmpxchg16b (%2)" : "+a"(zero_), "+d"(other_) : "r"(p + (offset)), "b"((long)(low)), "c"((long)(high)) \
                         : "memory", "cc"); } while (0)
#define STRING(instruction, offset, from, count) do { \
        void *to_ = p + (offset); const void *from_ = (from); long count_ = (count); \
        __asm__ volatile(instruction : "+D"(to_), "+S"(from_), "+c"(count_) : : "memory", "rax"); } while (0)

static int elsewhere;

int main(int two, char **words) /* two words: a number that the compiler doesn't know */
{
    const char *text = "0123456789abcdefghijklmnopqrstuvwxyz";
    int descriptor = open(words[1], O_RDWR | O_CREAT | O_TRUNC, 0644);
    if (ftruncate(descriptor, 16384)) return 1;
    unsigned char *p = mmap(0, 16384, PROT_READ | PROT_WRITE, MAP_SHARED, descriptor, 0);
    nc_start();
    nc_begin(1); //= begin 1

    /* Plain stores, within eight aligned bytes and over their ends; what changes nothing is no event. */
    PUT(char, 1) = 1;                   //= store l0+1 w1 0x1
    PUT(short, 2) = 0x0202;             //= store l0+2 w2 0x202
    PUT(int, 4) = 0x03030303;           //= store l0+4 w4 0x3030303
    PUT(long, 8) = 0x0404040404040404;  //= store l0+8 w8 0x404040404040404
    PUT(short, 17) = 0x0505;            //= store l0+16 w4 0x50500
    PUT(int, 23) = 0x06060606;          //= store l0+23 w1 0x6; store l0+24 w4 0x60606
    PUT(long, 60) = 0x0707070707070707; //= store l0+60 w4 0x7070707; store l1+0 w4 0x7070707
    PUT(char, 1) = 1;                   //=
    PUT(char, 3) = 2;                   //=

    /* Read and changed in memory, and stores of the processor's own state. */
    AT("addq $23, (%0)", 72);                //= store l1+8 w8 0x17
    AT("incl (%0)", 80);                     //= store l1+16 w4 0x1
    AT("btsl $5, (%0)", 84);                 //= store l1+20 w4 0x20
    AT("notb (%0)", 88);                     //= store l1+24 w1 0xff
    AT("negw (%0)", 88);                     //= store l1+24 w2 0xff01
    AT("xorl %%eax, %%eax; setz (%0)", 90);  //= store l1+26 w1 0x1
    AT("stmxcsr (%0)", 92);                  //= store l1+28 w4 0x1f80
    AT("fnstcw (%0)", 96);                   //= store l1+32 w2 0x37f
    AT("fld1; fstpt (%0)", 104);             //= store l1+40 w8 0x8000000000000000; store l1+48 w2 0x3fff
    _mm_sfence();                            //= fence

    /* Vectors. */
    _mm_storel_epi64((__m128i *)(p + 120), _mm_set1_epi8(8)); //= store l1+56 w8 0x808080808080808
    _mm_storeu_si128((__m128i *)(p + 128), _mm_set1_epi8(9)); //= store l2+0 w8 0x909090909090909; store l2+8 w8 0x909090909090909
    _mm_storeu_si128((__m128i *)(p + 148), _mm_set1_epi8(10)); //= store l2+20 w4 0xa0a0a0a; store l2+24 w8 0xa0a0a0a0a0a0a0a; store l2+32 w4 0xa0a0a0a
    _mm256_storeu_si256((__m256i *)(p + 192), _mm256_set1_epi8(11)); //= store l3+0 w8 0xb0b0b0b0b0b0b0b; store l3+8 w8 0xb0b0b0b0b0b0b0b; store l3+16 w8 0xb0b0b0b0b0b0b0b; store l3+24 w8 0xb0b0b0b0b0b0b0b
    _mm256_storeu_si256((__m256i *)(p + 242), _mm256_set1_epi8(12)); //= store l3+48 w8 0xc0c0c0c0c0c0000; store l3+56 w8 0xc0c0c0c0c0c0c0c; store l4+0 w8 0xc0c0c0c0c0c0c0c; store l4+8 w8 0xc0c0c0c0c0c0c0c; store l4+16 w2 0xc0c
    _mm256_maskstore_epi32((int *)(p + 288), _mm256_set_epi32(0, -1, 0, -1, -1, 0, 0, -1), _mm256_set1_epi32(13)); //= store l4+32 w4 0xd; store l4+44 w4 0xd; store l4+48 w4 0xd; store l4+56 w4 0xd
    __asm__ volatile("vpextrw $0, %1, (%0)" : : "r"(p + 320), "x"(_mm_set1_epi16(14)) : "memory"); //= store l5+0 w2 0xe
    __asm__ volatile("vextracti128 $1, %1, (%0)" : : "r"(p + 336), "x"(_mm256_set1_epi8(15)) : "memory"); //= store l5+16 w8 0xf0f0f0f0f0f0f0f; store l5+24 w8 0xf0f0f0f0f0f0f0f
    _mm_sfence(); //= fence

    /* Strings: the steps of one instruction are one store for each eight aligned bytes. */
    STRING("rep movsb", 384, text, 21); //= store l6+0 w8 0x3736353433323130; store l6+8 w8 0x6665646362613938; store l6+16 w8 0x6b6a696867
    STRING("rep movsb", 384, text, 21); //=
    STRING("movb $16, %%al; rep stosb", 411, text, 11); //= store l6+24 w8 0x1010101010000000; store l6+32 w8 0x101010101010
    STRING("movl $17, %%eax; rep stosq", 448, text, 3); //= store l7+0 w8 0x11; store l7+8 w8 0x11; store l7+16 w8 0x11
    STRING("movsb", 480, text, 0);      //= store l7+32 w1 0x30
    STRING("std; rep movsb; cld", 490, text + 2, 3); //= store l7+42 w1 0x32; store l7+41 w1 0x31; store l7+40 w1 0x30

    /* Past the cache: a run of stores into one line is cleaned behind it, be it that they change nothing. */
    _mm_stream_si32((int *)(p + 512), 18);       //= store l8+0 w4 0x12
    _mm_stream_si64((long long *)(p + 520), 19); //= store l8+8 w8 0x13
    _mm_stream_si128((__m128i *)(p + 528), _mm_set1_epi8(20)); //= store l8+16 w8 0x1414141414141414; store l8+24 w8 0x1414141414141414; clean l8
    _mm_stream_ps((float *)(p + 576), _mm_set1_ps(1)); //= store l9+0 w8 0x3f8000003f800000; store l9+8 w8 0x3f8000003f800000
    _mm256_stream_pd((double *)(p + 608), _mm256_set1_pd(2)); //= store l9+32 w8 0x4000000000000000; store l9+40 w8 0x4000000000000000; store l9+48 w8 0x4000000000000000; store l9+56 w8 0x4000000000000000; clean l9
    _mm_maskmoveu_si128(_mm_set1_epi8(22), _mm_set_epi8(0, 0, 0, 0, 0, 0, -1, 0, 0, 0, 0, 0, 0, 0, 0, -1), (char *)p + 656); //= store l10+16 w8 0x16; store l10+24 w8 0x1600; clean l10
    PUT(char, 704) = 23;                         //= store l11+0 w1 0x17
    _mm_stream_si32((int *)(p + 704), 23);       //= clean l11
    _mm_mfence();                                //= fence

    /* Locked instructions are fences where something waits. */
    AT("lock addl $24, (%0)", 768);                    //= store l12+0 w4 0x18
    EXCHANGE("lock xaddq %0, (%1)", 776, 25);          //= store l12+8 w8 0x19
    EXCHANGE("xchgq %0, (%1)", 784, 26);               //= store l12+16 w8 0x1a
    COMPARE(792, 27, 0);                               //= store l12+24 w8 0x1b
    COMPARE_TWO(800, 28, 29);                          //= store l12+32 w8 0x1c; store l12+40 w8 0x1d
    COMPARE(792, 30, 5);                               //=
    _mm_clwb(p + 768);                                 //= clean l12
    COMPARE(792, 30, 5);                               //= fence
    _mm_clwb(p + 768);                                 //= clean l12
    AT("lock incl (%0)", 768);                         //= store l12+0 w4 0x19; fence
    _mm_clwb(p + 768);                                 //= clean l12
    __asm__ volatile("lock incl %0" : "+m"(elsewhere)); //= fence
    __asm__ volatile("lock incl %0" : "+m"(elsewhere)); //=
    _mm_stream_si32((int *)(p + 832), 31);             //= store l13+0 w4 0x1f; clean l13
    __asm__ volatile("lock incl %0" : "+m"(elsewhere)); //= fence

    /* Cleans, by the ways to write an address. */
    _mm_clwb(p);                                                          //= clean l0
    _mm_clwb(p + 64 * two);                                               //= clean l2
    { register char *r13 __asm__("r13") = (char *)p + 128; __asm__ volatile("clwb (%0)" : : "r"(r13)); } //= clean l2
    { register char *r12 __asm__("r12") = (char *)p + 192; __asm__ volatile("clwb -64(%0)" : : "r"(r12)); } //= clean l2
    { register long r9 __asm__("r9") = 3; __asm__ volatile("clflushopt 0x80(%0, %1, 8)" : : "r"(p), "r"(r9)); } //= clean l2
    __asm__ volatile("clflushopt 0x1040(%0, %1, 8)" : : "r"(p), "r"((long)two)); //= clean l65
    __asm__ volatile("clwb (, %0, 1)" : : "r"(p + 320));                  //= clean l5
    _mm_clwb(&elsewhere);                                                 //=
    _mm_lfence();                                                         //=
    _mm_sfence();                                                         //= fence
    _mm_sfence();                                                         //= fence

    /* clflush is durable before the next store or fence, by a second hart. */
    PUT(int, 1088) = 32;   //= store l17+0 w4 0x20
    _mm_clflush(p + 1090); //= h1 clean l17
    PUT(int, 1152) = 33;   //= h1 fence; store l18+0 w4 0x21
    _mm_clflush(p + 1152); //= h1 clean l18
    _mm_clflush(p + 1088); //= h1 clean l17
    _mm_clwb(p + 1152);    //= clean l18
    _mm_sfence();          //= h1 fence; fence
    _mm_clflush(p + 1088); //= h1 clean l17
    nc_end(1);             //= h1 fence; end 1
    nc_stop();
    PUT(char, 0) = 1;
    return 0;
}
