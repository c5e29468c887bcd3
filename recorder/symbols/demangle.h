/*
 * Names as the source has them, of those that a compiler made for the linker. C++'s are read by the C++ library, which is
 * loaded where it is there; Rust's older ones are C++'s in form.
 */
#ifndef RECORD_DEMANGLE_H
#define RECORD_DEMANGLE_H

/* A text of one's own; NULL of any other name, and where the C++ library isn't there. */
char *demangle(const char *mangled);

#endif
