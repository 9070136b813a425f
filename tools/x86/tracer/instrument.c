/* SPDX-License-Identifier: GPL-2.0-or-later
 *
 * Puts calls into blocks of the program's code, which Valgrind hands over as statements of its intermediate code.
 */
#include "tracer.h"

/* ---- calls ---- */

static IRExpr *word(ULong number) { return IRExpr_Const(IRConst_U64(number)); }

static IRDirty *call_of(const HChar *name, void *function, IRExpr **arguments)
{
    return unsafeIRDirty_0_N(0, name, VG_(fnptr_to_fnentry)(function), arguments);
}

static void add_call(IRSB *out, const HChar *name, void *function, IRExpr **arguments)
{
    addStmtToIRSB(out, IRStmt_Dirty(call_of(name, function, arguments)));
}

static IRExpr *state_word(IRSB *out, Int offset)
{
    IRTemp value = newIRTemp(out->tyenv, Ity_I64);
    addStmtToIRSB(out, IRStmt_WrTmp(value, IRExpr_Get(offset, Ity_I64)));
    return IRExpr_RdTmp(value);
}

static IRExpr *stack_pointer(IRSB *out) { return state_word(out, offsetof(VexGuestAMD64State, guest_RSP)); }

/* A call that reads the general registers by the state, and may change them. */
static void add_state_call(IRSB *out, const HChar *name, void *function, IRExpr **arguments, IREffect effect)
{
    IRDirty *call = call_of(name, function, arguments);
    VG_(memset)(&call->fxState, 0, sizeof call->fxState);
    call->nFxState = 2;
    call->fxState[0].fx = effect;
    call->fxState[0].offset = offsetof(VexGuestAMD64State, guest_RAX);
    call->fxState[0].size = 16 * 8;
    call->fxState[1].fx = Ifx_Read;
    call->fxState[1].offset = offsetof(VexGuestAMD64State, guest_FS_CONST);
    call->fxState[1].size = 8;
    addStmtToIRSB(out, IRStmt_Dirty(call));
}

static void add_line_call(IRSB *out, Addr instruction)
{
    add_state_call(out, "on_line_instruction", on_line_instruction, mkIRExprVec_2(IRExpr_GSPTR(), word(instruction)), Ifx_Read);
}

/* ---- CPUID ---- */

static UInt cpuid_leaf, cpuid_subleaf;

static void before_cpuid(ULong rax, ULong rcx)
{
    cpuid_leaf = rax;
    cpuid_subleaf = rcx;
}

/* Valgrind hides clflushopt and clwb, which the tracer does know: so libraries choose them as they would without it. */
static void after_cpuid(VexGuestAMD64State *state)
{
    const ULong clflushopt = 1 << 23, clwb = 1 << 24;
    if (cpuid_leaf == 7 && cpuid_subleaf == 0) state->guest_RBX |= clflushopt | clwb;
}

static Bool is_cpuid(const IRStmt *statement)
{
    return statement->tag == Ist_Dirty
           && VG_(strncmp)(statement->Ist.Dirty.details->cee->name, "amd64g_dirtyhelper_CPUID", 24) == 0;
}

static void add_cpuid(IRSB *out, IRStmt *statement)
{
    IRExpr *rax = state_word(out, offsetof(VexGuestAMD64State, guest_RAX));
    IRExpr *rcx = state_word(out, offsetof(VexGuestAMD64State, guest_RCX));
    add_call(out, "before_cpuid", before_cpuid, mkIRExprVec_2(rax, rcx));
    addStmtToIRSB(out, statement);
    add_state_call(out, "after_cpuid", after_cpuid, mkIRExprVec_1(IRExpr_GSPTR()), Ifx_Modify);
}

/* ---- statements ---- */

typedef struct {
    IRSB *out;
    Addr address;
    Instruction instruction; /* whose statements follow */
} Place;

static void add_store(const Place *place, IRExpr *address, Int size, IRExpr *guard)
{
    IRExpr **arguments = mkIRExprVec_4(address, word(size), word(place->address), word(place->instruction.kind));
    IRDirty *call = call_of("on_store", on_store, arguments);
    if (guard) call->guard = guard;
    addStmtToIRSB(place->out, IRStmt_Dirty(call));
}

/* A load counts where lines that are loaded are asked for. */
static void add_load(const Place *place, IRExpr *address, Int size, IRExpr *guard)
{
    IRDirty *call;
    if (!options.loads) return;
    call = call_of("on_load", on_load, mkIRExprVec_2(address, word(size)));
    if (guard) call->guard = guard;
    addStmtToIRSB(place->out, IRStmt_Dirty(call));
}

static Int size_of(const Place *place, IRExpr *value) { return sizeofIRType(typeOfIRExpr(place->out->tyenv, value)); }

static Bool is_operation_function(Addr address)
{
    const HChar *name;
    Int i;
    if (options.operation_function_count == 0 || !VG_(get_fnname_if_entry)(VG_(current_DiEpoch)(), address, &name)) return False;
    for (i = 0; i < options.operation_function_count; i++)
        if (VG_(strcmp)(name, options.operation_functions[i]) == 0) return True;
    return False;
}

static void begin_instruction(Place *place, Addr address)
{
    place->address = address;
    place->instruction = read_instruction((const UChar *)address);
    if (is_operation_function(address))
        add_call(place->out, "on_operation_entry", on_operation_entry, mkIRExprVec_2(stack_pointer(place->out), word(address)));
}

/* A locked instruction writes, be it the old value. */
static void add_compare_and_swap(const Place *place, const IRCAS *swap)
{
    Int size = size_of(place, swap->dataLo) * (swap->dataHi ? 2 : 1);
    add_load(place, swap->addr, size, NULL);
    add_store(place, swap->addr, size, NULL);
    add_call(place->out, "on_locked", on_locked, mkIRExprVec_1(word(place->address)));
}

static void add_guarded_load(const Place *place, const IRLoadG *load)
{
    IRType loaded, widened;
    typeOfIRLoadGOp(load->cvt, &widened, &loaded);
    add_load(place, load->addr, sizeofIRType(loaded), load->guard);
}

/* A call of Valgrind's own, which does what an instruction does. */
static void add_helper(const Place *place, const IRDirty *call)
{
    if (call->mFx == Ifx_Read || call->mFx == Ifx_Modify) add_load(place, call->mAddr, call->mSize, call->guard);
    if (call->mFx == Ifx_Write || call->mFx == Ifx_Modify) add_store(place, call->mAddr, call->mSize, call->guard);
}

/* Calls behind a statement, where it is of interest. */
static void add_calls(Place *place, IRStmt *statement)
{
    InstructionKind kind = place->instruction.kind;
    switch (statement->tag) {
    case Ist_IMark:
        begin_instruction(place, statement->Ist.IMark.addr);
        break;
    case Ist_Store:
        add_store(place, statement->Ist.Store.addr, size_of(place, statement->Ist.Store.data), NULL);
        break;
    case Ist_StoreG: {
        IRStoreG *store = statement->Ist.StoreG.details;
        add_store(place, store->addr, size_of(place, store->data), store->guard);
        break;
    }
    case Ist_CAS:
        add_compare_and_swap(place, statement->Ist.CAS.details);
        break;
    case Ist_Dirty:
        add_helper(place, statement->Ist.Dirty.details);
        break;
    case Ist_WrTmp: {
        IRExpr *value = statement->Ist.WrTmp.data;
        if (value->tag == Iex_Load) add_load(place, value->Iex.Load.addr, sizeofIRType(value->Iex.Load.ty), NULL);
        break;
    }
    case Ist_LoadG:
        add_guarded_load(place, statement->Ist.LoadG.details);
        break;
    case Ist_MBE:
        if (kind == StoreFence || kind == FullFence)
            add_call(place->out, "on_fence", on_fence, mkIRExprVec_1(word(place->address)));
        break;
    default:
        break;
    }
}

/* Calls for what ends a block: clflush, a return, and clwb and clflushopt, at which Valgrind's reading of the code gives up. */
static void add_end(Place *place, const IRSB *in)
{
    IRSB *out = place->out;
    if (in->jumpkind == Ijk_InvalICache && place->instruction.kind == LineFlush) add_line_call(out, place->address);
    if (in->jumpkind == Ijk_NoDecode && in->next->tag == Iex_Const) {
        Addr address = in->next->Iex.Const.con->Ico.U64;
        Instruction unknown = read_instruction((const UChar *)address);
        if (unknown.kind == LineClean) {
            add_line_call(out, address);
            out->next = word(address + unknown.length);
            out->jumpkind = Ijk_Boring;
        }
    }
    if (options.operation_function_count > 0 && in->jumpkind == Ijk_Ret)
        add_call(out, "on_return", on_return, mkIRExprVec_2(stack_pointer(out), word(place->address)));
}

IRSB *instrument(VgCallbackClosure *closure, IRSB *in, const VexGuestLayout *layout, const VexGuestExtents *extents,
                 const VexArchInfo *arch, IRType guest_word, IRType host_word)
{
    Place place = { deepCopyIRSBExceptStmts(in), 0, { Ordinary } };
    Int i;
    for (i = 0; i < in->stmts_used; i++) {
        IRStmt *statement = in->stmts[i];
        if (options.shows_clwb && is_cpuid(statement)) add_cpuid(place.out, statement);
        else {
            addStmtToIRSB(place.out, statement);
            add_calls(&place, statement);
        }
    }
    add_end(&place, in);
    return place.out;
}
