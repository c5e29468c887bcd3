#include "show_run.h"

#include "work_folder.h"

const char no_recorder[] = "it didn't load the recorder";

void keep_recording(struct run *run)
{
    run->is_kept = true;
    work_folder_keep();
}
