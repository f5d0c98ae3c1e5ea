// A program in C++ against the installed library: a plan of one task is run to its end.
#include <vulcedar.h>

#include <cstdio>
#include <initializer_list>

int main()
{
    const uint8_t plan[] = { VULCEDAR_TASK, VULCEDAR_NO_PARENT };
    uint8_t row[1] = { 0 }, marks[1], classes[1];
    for (uint32_t code : { VULCEDAR_START, VULCEDAR_COMMIT })
        if (VULCEDAR_NUMBER(vulcedar_step(plan, sizeof plan, code, 0, row, sizeof row)) != VULCEDAR_PASSED) return 1;
    if (vulcedar_record(plan, sizeof plan, row, sizeof row, marks, 1, classes, 1) != VULCEDAR_PASSED) return 1;
    if (marks[0] != VULCEDAR_COMMITTED || classes[0] != VULCEDAR_AIRED) return 1;
    std::puts("aired");
    return 0;
}
