/* One of two copies of a record, in two cache lines each. A copy is good if its sum is right. */
#define VALUES 14

struct copy {
    unsigned long generation, values[VALUES], sum;
};

static inline unsigned long sum_of(const volatile struct copy *copy)
{
    unsigned long sum = copy->generation;
    for (unsigned long i = 0; i < VALUES; i++)
        sum ^= copy->values[i] + (sum << 7) + (sum >> 3);
    return sum;
}

static inline void clean_copy(volatile struct copy *copy)
{
    nc_clean(copy);
    nc_clean((volatile char *)copy + LINE_SIZE);
}
