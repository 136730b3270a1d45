/* The Ginix paper's heap methods in plain C, written to be compared with. */
#ifndef METHODS_H
#define METHODS_H

#include "engine.h"

/* The reading places stand in one array, and a list's place is moved on where it stands. */
join_call method_scan_line, method_active_interval, method_twin_heap;

/* The scan line once more, with all 16 places handed on by value at each step. */
join_call method_scan_line_by_value;

#endif
