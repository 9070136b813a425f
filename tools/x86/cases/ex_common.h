/* SPDX-License-Identifier: Apache-2.0
 *
 * PMDK's examples include a header of this name, which Debian's package libpmemobj-dev lacks. This is what they use of it.
 */
#include <stdint.h>
#include <sys/param.h>
#include <sys/stat.h>
#include <unistd.h>

#define CREATE_MODE_RW (S_IWUSR | S_IRUSR)

static inline int file_exists(const char *name) { return access(name, F_OK); }
static inline int find_last_set_64(uint64_t value) { return 63 - __builtin_clzll(value); }
