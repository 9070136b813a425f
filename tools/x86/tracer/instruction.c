/* SPDX-License-Identifier: GPL-2.0-or-later
 *
 * Instructions by their bytes. Valgrind's intermediate code has non-temporal stores as plain ones and all fences as one,
 * and the Valgrind of Debian 12 doesn't know clwb and clflushopt at all.
 */
#include "tracer.h"

typedef struct {
    Bool operand_size, repeat, repeat_not; /* 66, F3, F2 */
} Prefixes;

static Bool is_other_prefix(UChar byte)
{
    return byte == 0x2e || byte == 0x36 || byte == 0x3e || byte == 0x26 || byte == 0x65 || byte == 0xf0;
}

/* The prefixes before the instruction's own bytes, and where those begin. */
static const UChar *skip_prefixes(const UChar *at, Prefixes *prefixes, Instruction *instruction)
{
    for (;; at++) {
        if (*at == 0x66) prefixes->operand_size = True;
        else if (*at == 0xf3) prefixes->repeat = True;
        else if (*at == 0xf2) prefixes->repeat_not = True;
        else if (*at == 0x64) instruction->has_fs = True;
        else if (!is_other_prefix(*at)) break;
    }
    if ((*at & 0xf0) == 0x40) instruction->rex = *at++;
    return at;
}

/* movntq, movntdq (E7), movntps, movntpd (2B), movnti (C3) to memory, maskmovq and maskmovdqu (F7) of two registers. */
static Bool is_non_temporal(UChar opcode, UChar modrm, Bool is_vex, Prefixes prefixes)
{
    Bool is_to_memory = (modrm >> 6) != 3;
    if (prefixes.repeat || prefixes.repeat_not) return False;
    if (opcode == 0xe7 || opcode == 0x2b) return is_to_memory;
    if (opcode == 0xc3) return is_to_memory && !is_vex && !prefixes.operand_size;
    return opcode == 0xf7 && !is_to_memory;
}

/* What 0F AE means, which has fences (of no memory), clflush, clflushopt and clwb. */
static InstructionKind kind_of_group_15(UChar modrm, Prefixes prefixes)
{
    UChar operation = (modrm >> 3) & 7;
    Bool is_of_memory = (modrm >> 6) != 3;
    if (prefixes.repeat || prefixes.repeat_not) return Ordinary;
    if (!is_of_memory && !prefixes.operand_size)
        return operation == 7 ? StoreFence : operation == 6 ? FullFence : Ordinary;
    if (!is_of_memory) return Ordinary;
    if (operation == 7) return prefixes.operand_size ? LineClean : LineFlush;
    return operation == 6 && prefixes.operand_size ? LineClean : Ordinary;
}

/* The bytes of an address behind its ModRM byte. */
static Int address_length(const UChar *after_modrm, UChar modrm)
{
    UChar mode = modrm >> 6, base = modrm & 7;
    Int length = 0;
    if (base == 4) { /* a SIB byte, which may ask for four bytes in place of a base */
        length = 1;
        if (mode == 0 && (*after_modrm & 7) == 5) length += 4;
    }
    if (mode == 0 && base == 5) length += 4;
    if (mode == 1) length += 1;
    if (mode == 2) length += 4;
    return length;
}

/* One of the two-byte opcodes that begin with 0F. */
static void read_two_bytes(Instruction *instruction, const UChar *at, const UChar *start, Prefixes prefixes)
{
    UChar opcode = at[1], modrm = at[2];
    if (is_non_temporal(opcode, modrm, False, prefixes)) instruction->kind = NonTemporalStore;
    if (opcode != 0xae) return;
    instruction->kind = kind_of_group_15(modrm, prefixes);
    instruction->modrm = modrm;
    instruction->after_modrm = at + 3;
    instruction->length = at + 3 - start + address_length(at + 3, modrm);
}

/* One of VEX's forms, which have the prefixes in bits of their own. */
static void read_vex(Instruction *instruction, const UChar *opcode)
{
    Prefixes prefixes = { False, False, False };
    UChar prefix = opcode[-1] & 3; /* 0: none, 1: 66, 2: F3, 3: F2 */
    prefixes.operand_size = prefix == 1;
    prefixes.repeat = prefix == 2;
    prefixes.repeat_not = prefix == 3;
    if (is_non_temporal(opcode[0], opcode[1], True, prefixes)) instruction->kind = NonTemporalStore;
}

Instruction read_instruction(const UChar *bytes)
{
    Instruction instruction = { Ordinary, 0, 0, 0, NULL, False };
    Prefixes prefixes = { False, False, False };
    const UChar *at = skip_prefixes(bytes, &prefixes, &instruction);
    if (*at == 0xc5) read_vex(&instruction, at + 2);
    else if (*at == 0xc4 && (at[1] & 31) == 1) read_vex(&instruction, at + 3); /* the table of 0F */
    else if (*at == 0x0f) read_two_bytes(&instruction, at, bytes, prefixes);
    else if (*at == 0xa4 || *at == 0xa5 || *at == 0xaa || *at == 0xab) instruction.kind = StringStep;
    return instruction;
}

/* Valgrind's state has the sixteen registers in the order of their numbers. */
static ULong general_register(const VexGuestAMD64State *state, Int number) { return (&state->guest_RAX)[number]; }

static Int signed_four_bytes(const UChar *at)
{
    Int number;
    VG_(memcpy)(&number, at, sizeof number);
    return number;
}

Addr line_address(const VexGuestAMD64State *state, const UChar *bytes)
{
    Instruction instruction = read_instruction(bytes);
    const UChar *at = instruction.after_modrm;
    UChar mode = instruction.modrm >> 6, base = instruction.modrm & 7;
    Int high_base = instruction.rex & 1 ? 8 : 0, high_index = instruction.rex & 2 ? 8 : 0;
    Addr address = instruction.has_fs ? state->guest_FS_CONST : 0;
    if (base == 4) {
        UChar scale = *at >> 6, index = ((*at >> 3) & 7) | high_index, sib_base = *at & 7;
        at++;
        if (index != 4) address += general_register(state, index) << scale;
        if (mode == 0 && sib_base == 5) address += signed_four_bytes(at);
        else address += general_register(state, sib_base | high_base);
    } else if (mode == 0 && base == 5) /* from the next instruction on */
        address += (Addr)bytes + instruction.length + signed_four_bytes(at);
    else
        address += general_register(state, base | high_base);
    if (mode == 1) address += *(const signed char *)at;
    if (mode == 2) address += signed_four_bytes(at);
    return address;
}
