#include "bank.h"

int main(void)
{
    transfer(3);
    return 0;
}
