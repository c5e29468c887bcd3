/*
 * The folder in which `record` works: it is removed when all is told, or when INT comes, unless it is to be kept.
 */
#ifndef RECORD_WORK_FOLDER_H
#define RECORD_WORK_FOLDER_H

/* Removes the folder and all that is in it, and follows no links. A handler of signals may call it. */
void folder_remove(const char *path);

/* From here on INT removes it and ends with 130; where INT is ignored, it stays so. */
void work_folder_begin(const char *folder);

/* It isn't removed any more. */
void work_folder_keep(void);

void work_folder_end(void);

#endif
