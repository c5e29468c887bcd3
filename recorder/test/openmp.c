/*
 * OpenMP's locks in both orders, those that their holder may take again, and critical sections, with a name and without.
 */
#include <omp.h>

static omp_lock_t front, back;
static omp_nest_lock_t table;

static void both(omp_lock_t *first, omp_lock_t *second)
{
    omp_set_lock(first);
    omp_set_lock(second);
    omp_unset_lock(second);
    omp_unset_lock(first);
}

static void table_then_sections(void)
{
    omp_set_nest_lock(&table);
    omp_set_nest_lock(&table);
#pragma omp critical(index)
    {
#pragma omp critical
        omp_unset_nest_lock(&table);
    }
    omp_unset_nest_lock(&table);
}

static void sections_then_table(void)
{
#pragma omp critical(index)
    omp_set_nest_lock(&table);
    omp_unset_nest_lock(&table);
}

int main(void)
{
    omp_init_lock(&front);
    omp_init_lock(&back);
    omp_init_nest_lock(&table);
    both(&front, &back);
    both(&back, &front);
    table_then_sections();
    sections_then_table();
    if (omp_test_lock(&front))
        omp_unset_lock(&front);
    omp_destroy_lock(&front);
    omp_destroy_nest_lock(&table);
    return 0;
}
