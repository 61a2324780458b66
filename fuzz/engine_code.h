/* Which instructions of the engine's own object code were reached. */
#ifndef JURENGATE_FUZZ_ENGINE_CODE_H
#define JURENGATE_FUZZ_ENGINE_CODE_H

/* Watches the instructions whose addresses the file named by the variable ENGINE_CODE lists; none without it. */
void watch_engine_code(void);

void print_engine_code(void);

#endif
