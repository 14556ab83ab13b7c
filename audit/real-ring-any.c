/* What the C of a model is answered at an `if any`: either branch. audit/real-ring links it with each program. */
#include <stdatomic.h>
#include <unistd.h>

extern int ringcheck_any(void);

int ringcheck_any(void)
{
    static atomic_uint calls;
    const unsigned mixed = (atomic_fetch_add(&calls, 1) + (unsigned)getpid()) * 2654435761u;

    return (int)(mixed >> 31);
}
