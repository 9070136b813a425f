/* SPDX-License-Identifier: Apache-2.0 OR GPL-2.0-or-later
 *
 * Marks for a program that novacrash-trace runs. They do nothing where it runs by itself, and cost some instructions.
 * The header needs <valgrind/valgrind.h>, which Debian's package valgrind has (its licence is a BSD one).
 */
#ifndef NOVACRASH_MARKS_H
#define NOVACRASH_MARKS_H

#include <valgrind/valgrind.h>

/* The requests' numbers: the tracer answers them, and no other tool does. */
#define NC_REQUEST_START (VG_USERREQ_TOOL_BASE('N', 'C') + 0)
#define NC_REQUEST_STOP (VG_USERREQ_TOOL_BASE('N', 'C') + 1)
#define NC_REQUEST_BEGIN (VG_USERREQ_TOOL_BASE('N', 'C') + 2)
#define NC_REQUEST_END (VG_USERREQ_TOOL_BASE('N', 'C') + 3)

/* The medium is the file as it is now, and the trace begins. Without it the first operation's begin does so. */
#define nc_start() VALGRIND_DO_CLIENT_REQUEST_STMT(NC_REQUEST_START, 0, 0, 0, 0, 0)

/* The trace ends, for good. Without it the program's end does so. */
#define nc_stop() VALGRIND_DO_CLIENT_REQUEST_STMT(NC_REQUEST_STOP, 0, 0, 0, 0, 0)

/* The calling thread's operation of this number begins. */
#define nc_begin(operation) VALGRIND_DO_CLIENT_REQUEST_STMT(NC_REQUEST_BEGIN, operation, 0, 0, 0, 0)

/* The operation is reported to be done: whatever a power cut leaves from here on has it. */
#define nc_end(operation) VALGRIND_DO_CLIENT_REQUEST_STMT(NC_REQUEST_END, operation, 0, 0, 0, 0)

#endif
