/*
 * The reports of a run as JSON, for programs that read them: recorder/schema/findings.schema.json says what stands in it.
 */
#ifndef RECORD_JSON_H
#define RECORD_JSON_H

#include <stdio.h>

#include "run_reports.h"

void json_write(FILE *to, const struct run_reports *gathered);

#endif
