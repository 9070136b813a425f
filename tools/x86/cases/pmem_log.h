/* SPDX-License-Identifier: Apache-2.0 */

struct record { unsigned long value; char text[184]; };
struct log { unsigned long used; char rest[56]; struct record records[20]; };
