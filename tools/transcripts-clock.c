/* A clock that goes on by a second at each look, so that `--progress` tells of each moment and state, and the same in each run.
   tools/test-transcripts has it loaded before the C library. There may be no headers where it is compiled. */

struct timespec {
    long tv_sec, tv_nsec;
};

int clock_gettime(int clock, struct timespec *time) {
    static long looks;
    (void)clock;
    time->tv_sec = __atomic_fetch_add(&looks, 1, __ATOMIC_SEQ_CST);
    time->tv_nsec = 0;
    return 0;
}
