#include "bank.h"

int main(void)
{
    return report() == 0 ? 0 : 1;
}
