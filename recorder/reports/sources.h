/*
 * The source files of a run's places, as a list of JSON: what else is known of each.
 */
#ifndef RECORD_SOURCES_H
#define RECORD_SOURCES_H

#include "json_writer.h"
#include "run_reports.h"

/*
 * Each file once, in the order of the places: its name there, its own name, whether it was changed after the program was
 * built, and the lines around the places of reports and their schedules.
 */
void sources_write(struct objects *to, const struct run_reports *gathered);

#endif
