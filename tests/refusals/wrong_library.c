/* Wrong libraries, which tests/refusals/library has to find: `wakotehu_submit` in the place of the library's own, by the
 * linker's --wrap. With HIDES defined a submission that had no memory is made again, and nobody is told; with TAKES its step
 * is taken, and it is answered that there was no memory.
 */
#include "wakotehu.h"

wakotehu_code __real_wakotehu_submit(wakotehu_handle chain, const uint8_t *bytes, size_t length, uint64_t now,
                                     wakotehu_answer *answer);

wakotehu_code __wrap_wakotehu_submit(wakotehu_handle chain, const uint8_t *bytes, size_t length, uint64_t now,
                                     wakotehu_answer *answer)
{
    wakotehu_code code = __real_wakotehu_submit(chain, bytes, length, now, answer);
    if (code != WAKOTEHU_MEMORY)
        return code;
#ifdef HIDES
    return __real_wakotehu_submit(chain, bytes, length, now, answer);
#endif
#ifdef TAKES
    __real_wakotehu_submit(chain, bytes, length, now, answer);
    return WAKOTEHU_MEMORY;
#endif
}
