#include "status.h"
#include <inttypes.h>

static bool print(FILE *file, struct image *image, uint64_t saved, const struct losses *losses) {
    pansuyog_space_t space = {0};
    bool has_space = pansuyog_file_space(&image->volume, &space) == PANSUYOG_OK;
    bool is_well = fprintf(file, "{\"time\":%lld,\"saved\":%" PRIu64 ",\"lost_bytes\":%" PRIu64 ",\"cut_lines\":%" PRIu64,
                           (long long)time(NULL), saved, losses->lost, losses->cut_lines) > 0;
    if (has_space) is_well &= fprintf(file, ",\"need\":%" PRIu64 ",\"limit\":%" PRIu64, space.need, space.limit) > 0;
    return fputs("}\n", file) >= 0 && is_well;
}

void status_write(struct status_file *status, uint64_t saved, const struct losses *losses) {
    char part[PATH_MAX];
    if (status->path == NULL) return;
    errno = ENAMETOOLONG;
    bool fits = snprintf(part, sizeof part, "%s.part", status->path) < (int)sizeof part;
    FILE *file = fits ? fopen(part, "w") : NULL;
    bool is_well = file != NULL && print(file, status->image, saved, losses);
    if (file != NULL && fclose(file) != 0) is_well = false;
    if (is_well) is_well = rename(part, status->path) == 0;
    if (!is_well && !status->has_failed) fprintf(stderr, "%s: it can't be written: %s\n", status->path, strerror(errno));
    status->has_failed = !is_well;
}
