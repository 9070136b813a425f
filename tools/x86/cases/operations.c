/* SPDX-License-Identifier: Apache-2.0
 *
 * Operations by the names of functions: set calls itself and set_both, which is one too where it is asked for. operations FILE
 */
#include <fcntl.h>
#include <sys/mman.h>
#include <unistd.h>

static volatile long *numbers;

__attribute__((noinline)) static void set_both(long value)
{
    numbers[0] = value;
    numbers[8] = value;
}

__attribute__((noinline)) static void set(int depth, long value)
{
    if (depth > 0) set(depth - 1, value);
    else set_both(value);
    numbers[16] = value;
}

int main(int count, char **words)
{
    int file = open(words[1], O_RDWR | O_CREAT, 0644);
    if (count != 2 || ftruncate(file, 4096)) return 2;
    numbers = mmap(0, 4096, PROT_READ | PROT_WRITE, MAP_SHARED, file, 0);
    numbers[24] = 5; /* before the first operation */
    set(2, 1);
    numbers[0] = 2;
    set_both(3);
    return 7;
}
