/*
 * Whether all threads of a steered program sleep: then a pause is in vain, since nobody comes.
 */
#ifndef RECORD_SLEEPERS_H
#define RECORD_SLEEPERS_H

/*
 * Looks at the process that has mapped the plan, which is in that open file, and writes there what it has seen. Where
 * several have mapped it, or the kernel doesn't tell, nothing is known.
 */
void asleep_look(int plan);

#endif
