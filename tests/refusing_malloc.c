/* Preloaded, refuses requests for memory of a process:

       REFUSED=N           the one of this number
       ONE_IN=N SEED=S     each one with a chance of one in N, by the seed and its number
       SPARED=N            but none of the first N of these

   The requests are counted in the file that COUNTED names, which has eight bytes. Where it has sixteen, those that were refused are
   counted behind them. */
#define _GNU_SOURCE
#include <dlfcn.h>
#include <fcntl.h>
#include <stdint.h>
#include <stdlib.h>
#include <sys/mman.h>
#include <unistd.h>

static uint64_t refused, one_in, seed, spared;
static uint64_t *counted, *refusals;

/* A pseudo-random number, by the seed and this one: the step of SplitMix64. */
static uint64_t drawn(uint64_t number)
{
    uint64_t mixed = seed + number * 0x9e3779b97f4a7c15u;
    mixed = (mixed ^ mixed >> 30) * 0xbf58476d1ce4e5b9u;
    mixed = (mixed ^ mixed >> 27) * 0x94d049bb133111ebu;
    return mixed ^ mixed >> 31;
}

static int is_refused(void)
{
    if (!counted)
        return 0;
    uint64_t number = __atomic_add_fetch(counted, 1, __ATOMIC_RELAXED);
    int is_drawn = one_in && number > spared && drawn(number) % one_in == 0;
    if (number != refused && !is_drawn)
        return 0;
    if (refusals)
        __atomic_add_fetch(refusals, 1, __ATOMIC_RELAXED);
    return 1;
}

void *malloc(size_t size)
{
    static void *(*given)(size_t);
    if (!given)
        given = (void *(*)(size_t))dlsym(RTLD_NEXT, "malloc");
    return is_refused() ? NULL : given(size);
}

void *realloc(void *block, size_t size)
{
    static void *(*given)(void *, size_t);
    if (!given)
        given = (void *(*)(void *, size_t))dlsym(RTLD_NEXT, "realloc");
    return is_refused() ? NULL : given(block, size);
}

static uint64_t number_in(const char *name)
{
    const char *text = getenv(name);
    return text ? strtoull(text, NULL, 10) : 0;
}

__attribute__((constructor)) static void begin(void)
{
    const char *path = getenv("COUNTED");
    int file = path ? open(path, O_RDWR) : -1;
    off_t size = file < 0 ? 0 : lseek(file, 0, SEEK_END);
    uint64_t *map = file < 0 ? MAP_FAILED : mmap(NULL, 16, PROT_READ | PROT_WRITE, MAP_SHARED, file, 0);
    refused = number_in("REFUSED"), one_in = number_in("ONE_IN");
    seed = number_in("SEED"), spared = number_in("SPARED");
    if (map == MAP_FAILED)
        return;
    refusals = size < 16 ? NULL : map + 1;
    counted = map;
}
