#include "bank.h"

int main(void)
{
    rebuild();
    return 0;
}
