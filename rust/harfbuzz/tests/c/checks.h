/* What the programs beside it share: a count of checks, and the faces of this project's fonts. */
#ifndef CHECKS_H
#define CHECKS_H

#include <hb.h>
#include <stdio.h>
#include <string.h>

static int passed, failed;

static inline void check(int holds, const char *what) {
    passed += holds;
    failed += !holds;
    if (!holds) printf("failed: %s\n", what);
}

static inline void check_text(const char *found, const char *expected, const char *what) {
    check(!strcmp(found, expected), what);
    if (strcmp(found, expected)) printf("  found    %s\n  expected %s\n", found, expected);
}

static inline hb_face_t *face_of(const char *folder, const char *name) {
    char path[4096];
    snprintf(path, sizeof path, "%s/%s", folder, name);
    hb_blob_t *blob = hb_blob_create_from_file(path);
    hb_face_t *face = hb_face_create(blob, 0);
    hb_blob_destroy(blob);
    return face;
}

static inline int counted(void) {
    printf("%d passed, %d failed\n", passed, failed);
    return failed != 0;
}

#endif
