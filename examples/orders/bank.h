void transfer(int amount);
int report(void);
void rebuild(void);
