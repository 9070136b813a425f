/* SPDX-License-Identifier: Apache-2.0 */

struct entry { unsigned long value, check; char name[48]; };
struct log { unsigned long tail; char rest[56]; struct entry entries[62]; };
