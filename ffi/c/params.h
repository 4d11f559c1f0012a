/* What both files of C have of heights of soft forks: as the proved functions read them (Heights of crates/ffi). */
#ifndef WAKOTEHU_PARAMS_H
#define WAKOTEHU_PARAMS_H

#include "wakotehu.h"

struct wakotehu_params {
    wakotehu_heights heights;
    struct {
        uint32_t is_some, height;
    } nulldummy;
};

/* These four alone. */
static inline wakotehu_params params_of(const wakotehu_heights *heights) { return (wakotehu_params){*heights, {0, 0}}; }

#endif
