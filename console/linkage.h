/* What is behind the numbers that are about imports and relocation: 17, 18, and the 14 of CALL_E. */
#ifndef LINKAGE_H
#define LINKAGE_H

#include "code.h"
#include "module.h"

/* The records are sound. Each answers the number of the module that is to blame, or how many modules there are where no single one is,
 * and writes the reason, which is empty where none is found. */
size_t find_import_fault(struct modules set, char reason[REASON_MAX]);
size_t find_relocation_fault(struct modules set, char reason[REASON_MAX]);
size_t find_external_callee_fault(struct modules set, char reason[REASON_MAX]);

#endif
