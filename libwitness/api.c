/* What a program says to the library (libwitness.h). */
#include "judge.h"
#include "libwitness.h"

EXPORT int witness_start(void)
{
    judge_wants();
    return recorder_wakes();
}
